#!/bin/sh
# requests.sh [PROGRAM [SEED COUNT [FIRST]]]: compares what requests 9, 11, 12 and 14 and the quick questions add with the independent reader, on COUNT cases (2000) of a SEED (1)
# from case FIRST on. PROGRAM is
#
#   indexes             estelunya_index, estelunya_check_index
#   quick               the five quick questions, estelunya_quick_walk and so on
#   boards              estelunya_board
#   quick_boards        estelunya_quick_board
#   connections         estelunya_connection
#   quick_connections   estelunya_quick_connection
#   writes              estelunya_write, and the round trip by estelunya_load
#   isolation           nothing new: edited blocks and renamed bit fields by estelunya_load and estelunya_walk
#
# Without one, all whose functions the archive has; what it does not have is named. ARCHIVE and NATIVE as in archive.sh. Ends with 'requests.sh: ok'.
set -eu
cd "$(dirname "$0")/.."
. tools/archive.sh

functions() {
    case $1 in
    indexes) echo index check_index ;;
    quick) echo quick_walk quick_day quick_interchange quick_interchange_between quick_stop_name ;;
    boards) echo board ;;
    quick_boards) echo quick_board ;;
    connections) echo connection ;;
    quick_connections) echo quick_connection ;;
    writes) echo write ;;
    isolation) echo load walk ;;
    *) die "there is no program $1" ;;
    esac
}

# missing PROGRAM: its functions that the archive does not have
missing() {
    for function in $(functions "$1"); do
        grep -aqw "estelunya_$function" "$ARCHIVE/libestelunya.a" || echo "estelunya_$function"
    done
}

compare_with() {
    name=$1
    shift
    linked "$name" "compare/src/bin/$name.rs"
    run "$out/$name" "$@"
}

planner_library
compare_library
if [ $# -gt 0 ]; then
    name=$1
    shift
    [ $# -gt 0 ] || set -- 1 2000
    absent=$(missing "$name")
    [ -z "$absent" ] || die "the archive has no $absent"
    compare_with "$name" "$@"
else
    for name in indexes quick boards quick_boards connections quick_connections writes isolation; do
        absent=$(missing "$name")
        if [ -z "$absent" ]; then compare_with "$name" 1 2000; else say "$name is left out: the archive has no $(echo "$absent" | tr "\n" " ")"; fi
    done
fi
echo "requests.sh: ok"
