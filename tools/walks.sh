#!/bin/sh
# walks.sh [MIB ..]: counts the instructions of a walk by the archive and by the independent reader, on the tables of generated deliveries with an FPLAN of each
# size (1 4 16; stops and bit fields grow with it, to 30,000 and 20,000 at 16 MiB). Of each walk: all of it; the look whether the words are a table (21), which
# reads all of them; and the rest, which finds the service, its legs, and for each call its stop and its times.
#
# valgrind counts. On a machine that is not x86-64 the archive is the same module compiled for it (native.sh).
set -eu
cd "$(dirname "$0")/.."
[ $# -gt 0 ] || set -- 1 4 16
command -v valgrind >/dev/null || { echo 'walks.sh: no valgrind on the path' >&2; exit 1; }
if [ -z "${ARCHIVE:-}" ]; then
    tools/native.sh estelunya
    ARCHIVE=target/native
fi
if [ "$(uname -m)" != x86_64 ]; then NATIVE=1; fi
. tools/archive.sh
place=target/walks
mkdir -p "$place"
planner_library
compare_library
linked walks compare/src/bin/walks.rs

# counted BY HOW: the instructions of all walks
counted() {
    valgrind --tool=callgrind --toggle-collect="$1_walk" --callgrind-out-file="$place/counted" \
        "$out/walks" ask "$1" "$2" "$place/table" >"$place/rows" 2>"$place/valgrind.log" || { cat "$place/valgrind.log" >&2; exit 1; }
    sed -n 's/^totals: //p' "$place/counted"
}

echo "$(rust --version); $(uname -m); instructions of a walk, mean of 20"
for size in "$@"; do
    run "$out/walks" write "$size" "$place/table"
    for by in archive reader; do
        refused=$(counted "$by" refused)
        all=$(counted "$by" rows)
        awk -v size="$size" -v by="$by" -v all="$all" -v refused="$refused" -v rows="$(sed 's/ rows//' "$place/rows")" \
            -v words="$(($(wc -c <"$place/table") / 4 - 80))" 'BEGIN {
            printf "  %s MiB, %d words, %-7s  all %10.0f   21 %10.0f   the rest %8.0f, for each of its %.1f calls %6.0f\n", \
                size, words, by, all / 20, refused / 20, (all - refused) / 20, rows / 20, (all - refused) / rows }'
    done
done
