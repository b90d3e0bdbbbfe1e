#!/bin/sh
# national.sh [SIZE ..]: loads generated deliveries by the archive and by the ordinary loader of docs/, and prints for each the times of both in one run
# (the least of several turns, processor time), the instructions of both, and the ratios; last, how often a load classifies a line of FPLAN. SIZE is
#
#   MIB                              FPLAN of so many MiB; stops and bit fields grow with it, to 30,000 and 20,000 at 16 MiB
#   MIB:STOPS:FIELDS[:NUMBERS]       so many of them; NUMBERS are consecutive (else), equal-ending or random
#   shortest:MIB[:NUMBERS]           BITFELD, BAHNHOF and UMSTEIGB of so many MiB each, of the shortest records; FPLAN and ZUGART are empty
#   bitfeld:MIB bahnhof:MIB umsteigb:MIB   the same of one file alone (but UMSTEIGB's stops are in BAHNHOF too)
#   zugart:MIB                       ZUGART of so many MiB, of the shortest lines; the other files have only what they must
#   categories:MIB:COUNT             FPLAN of so many MiB with so many categories (else 40)
#   empty:MIB                        BITFELD, BAHNHOF and UMSTEIGB of so many empty lines
#   worst:MIB[:LINES]                BAHNHOF and UMSTEIGB of so many lines (3162), BITFELD of 1000, all numbers of each in one bucket of a map with as many
#                                    buckets as lines; FPLAN of so many MiB asks for the numbers at the ends of the chains
#
# Without arguments it is `1 4 16`; `worst` alone stands for all worst cases: 20,000 numbers in each order, files of the shortest lines, one bucket.
#
# valgrind counts. On a machine that is not x86-64 the archive is the same module compiled for it (native.sh).
set -eu
cd "$(dirname "$0")/.."
case ${*:-} in
'') set -- 1 4 16 ;;
worst)
    set -- 4:20000:20000:consecutive 4:20000:20000:equal-ending 4:20000:20000:random bitfeld:16 bahnhof:16 umsteigb:16 shortest:16 \
        shortest:16:equal-ending shortest:16:random zugart:1 zugart:16 categories:4:500 categories:4:5000 empty:16 worst:4:500 worst:4 worst:4:20000
    ;;
esac
command -v valgrind >/dev/null || { echo 'national.sh: no valgrind on the path' >&2; exit 1; }
tools/native.sh estelunya
if [ "$(uname -m)" != x86_64 ]; then
    NATIVE=1
    ARCHIVE=target/native
fi
. tools/archive.sh
place=target/national
mkdir -p "$place" "$out/plain"

build() {
    planner_library
    compare_library
    ordinary_library
    linked national compare/src/bin/national.rs --extern ordinary_loader
}
build
national=$out/national
# The archive in which every function stands by itself, so that calls are seen.
ARCHIVE=target/native/plain
out=$out/plain
build
plain=$out/national

# counted PROGRAM LOADER FUNCTION: what valgrind sees from FUNCTION's start to its end, in $place/counted
counted() {
    valgrind --tool=callgrind --dump-instr=yes --compress-pos=no --toggle-collect="$3" --callgrind-out-file="$place/counted" \
        "$1" load "$2" "$place/delivery" >"$place/valgrind.log" 2>&1 || { cat "$place/valgrind.log" >&2; exit 1; }
}

# How often the function NAME was entered, by $place/counted: how often its first instruction ran. A name stands beside its number once, later the number
# stands for it; NAME'2 is the same function, whose instructions may stand under both. A line after `calls=` is the cost of a call.
entered() {
    awk -v name="$1" '
        /^c?fn=/ { split($0, part, /[()]/); if (index($0, ") ")) names[part[2]] = substr($0, index($0, ") ") + 2) }
        /^fn=/ { of = names[part[2]]; sub(/\047[0-9]+$/, "", of) }
        /^0x/ && of == name && !call { if (first == "" || $1 < first) { first = $1; times = 0 } if ($1 == first) times += $3 }
        { call = /^calls=/ }
        END { print times + 0 }' "$place/counted"
}

instructions() { sed -n 's/^totals: //p' "$place/counted"; }

# deliver SIZE: writes the delivery, and says what it is
deliver() {
    "$national" write "$1" "$place/delivery"
    lines=0
    for file in BITFELD BAHNHOF UMSTEIGB ZUGART FPLAN; do
        of_file=$(wc -l <"$place/delivery/$file")
        lines=$((lines + of_file))
        printf '%s%s of %s lines' "${separator:-$1: }" "$file" "$of_file"
        separator=', '
    done
    separator=
    echo
}

echo "$(rust --version); $(uname -m), $(getconf _NPROCESSORS_ONLN) cores"
for size in "$@"; do
    deliver "$size"
    "$national" time "$place/delivery"
    counted "$national" archive estelunya_load
    ours=$(instructions)
    counted "$national" ordinary ordinary_load
    awk -v ours="$ours" -v ordinary="$(instructions)" -v lines="$lines" 'BEGIN {
        printf "  instructions, millions    %10.2f %10.2f %8.2f\n", ours / 1e6, ordinary / 1e6, ours / ordinary
        printf "  instructions a line       %10.0f %10.0f\n", ours / lines, ordinary / lines }'
done

deliver 0.1:20:10
counted "$plain" archive estelunya_load
for function in told::told_of forms::kind_of; do
    awk -v name="$function" -v times="$(entered "$function")" -v lines="$of_file" 'BEGIN {
        printf "  calls a line of %-18s %8.2f\n", name, times / lines }'
done
