#!/bin/sh
# questions.sh [MIB ..]: counts the instructions of each question by the archive, plain and by an index, beside the ordinary program's (docs/ordinary-loader), on the tables of generated
# deliveries with an FPLAN of each size (1 4 16, not below 1; stops and bit fields grow with it, to 30,000 and 20,000 at 16 MiB). A walk (of 15 calls), day, interchange, between, name and board of a usual
# stop (of 8 calls, all day) are means of 20; `hub` is a board of two hours at a stop with 2,000 calls; `connection` has three parts; `write` is by the line; `index` makes the index, or the ordinary program's maps, and
# `check` looks whether words are it; `sound` is the look whether the words are a table (21). What the archive does not have yet is left out.
#
# valgrind counts. On a machine that is not x86-64 the archive is the same module compiled for it (native.sh). ARCHIVE as in archive.sh, of an archive for this machine.
set -eu
cd "$(dirname "$0")/.."
[ $# -gt 0 ] || set -- 1 4 16
command -v valgrind >/dev/null || { echo 'questions.sh: no valgrind on the path' >&2; exit 1; }
if [ -z "${ARCHIVE:-}" ]; then
    tools/native.sh estelunya
    ARCHIVE=target/native
fi
if [ "$(uname -m)" != x86_64 ]; then NATIVE=1; fi
. tools/archive.sh
place=target/questions
mkdir -p "$place"

# words for the features of the program, by the functions that the archive has
has() { grep -aqw "estelunya_$1" "$ARCHIVE/libestelunya.a"; }
features() {
    if has index && has check_index; then echo '--cfg feature="indexes"'; fi
    if has quick_walk && has quick_day && has quick_interchange && has quick_interchange_between && has quick_stop_name; then echo '--cfg feature="quick"'; fi
    if has board; then echo '--cfg feature="boards"'; fi
    if has quick_board; then echo '--cfg feature="quick_boards"'; fi
    if has connection; then echo '--cfg feature="connections"'; fi
    if has quick_connection; then echo '--cfg feature="quick_connections"'; fi
    if has write; then echo '--cfg feature="writes"'; fi
}

planner_library
compare_library
ordinary_library
# shellcheck disable=SC2046 # features are words
linked questions compare/src/bin/questions.rs --extern ordinary_loader $(features)

# counted BY: what each sort of question took, as lines `sort BY instructions`, of one question or line
counted() {
    valgrind --tool=callgrind --toggle-collect='measured_*' --callgrind-out-file="$place/counted" \
        "$out/questions" ask "$1" "$place/delivery" >"$place/asked" 2>"$place/valgrind.log" || { cat "$place/valgrind.log" >&2; exit 1; }
    # What stands under a function is its own cost and that of its calls; a name stands beside its number once, later the number stands for it.
    awk -v by="$1" '
        FNR == NR { units[$1] = $2; next }
        /^c?fn=/ { split($0, part, /[()]/); if (index($0, ") ")) names[part[2]] = substr($0, index($0, ") ") + 2) }
        /^fn=/ { of = names[part[2]] }
        /^[0-9+*-]/ && of ~ /^measured_/ { cost[substr(of, 10)] += $NF }
        END { for (sort in cost) { shown = sort == "made" ? "index" : sort; print shown, by, cost[sort] / units[shown] } }' "$place/asked" "$place/counted"
}

echo "$(rust --version); $(uname -m); instructions of a question"
for size in "$@"; do
    run "$out/questions" write "$size" "$place/delivery"
    for by in ordinary plain quick; do counted "$by"; done >"$place/all"
    awk -v size="$size" '
        { cost[$1, $2] = $3 }
        END {
            printf "%s MiB  %-12s %12s %12s %12s %12s %12s\n", size, "", "plain", "quick", "ordinary", "plain/ord", "quick/ord"
            count = split("walk day interchange between name board hub connection write index check sound", sorts, " ")
            for (i = 1; i <= count; i++) {
                sort = sorts[i]; ordinary = cost[sort, "ordinary"]
                printf "       %-12s", sort
                for (j = 1; j <= 3; j++) { by = j == 1 ? "plain" : j == 2 ? "quick" : "ordinary"; printf " %12s", cost[sort, by] == "" ? "-" : sprintf("%.0f", cost[sort, by]) }
                for (j = 1; j <= 2; j++) { by = j == 1 ? "plain" : "quick"; printf " %12s", cost[sort, by] == "" || ordinary == "" ? "-" : sprintf("%.2f", cost[sort, by] / ordinary) }
                print ""
            }
        }' "$place/all"
done
