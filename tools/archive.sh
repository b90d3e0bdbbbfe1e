# Sourced by planner.sh, requests.sh, drift.sh, bench.sh, national.sh, walks.sh and questions.sh, from the repository's root: programs that link libestelunya.a.
#
#   ARCHIVE   the directory of a libestelunya.a to link; without it, the archive is proved and written first
#   NATIVE    any non-empty value: that archive was compiled for the machine at hand, and so are the programs
#
# shellcheck shell=sh disable=SC2034

. tools/cross.sh
out=target/planner${NATIVE:+-native}
mkdir -p "$out"
if [ -n "${NATIVE:-}" ]; then for_machine; else for_x86_64; fi

if [ -z "${ARCHIVE:-}" ]; then
    proved_archive estelunya
    ARCHIVE=target/staticlib
    export ARCHIVE
fi

# The crate estelunya-sys takes the archive in, so that a program only names the planner's crate.
planner_library() {
    library estelunya_sys planner/sys/src/lib.rs -L "$ARCHIVE" -l static=estelunya
    library estelunya_planner planner/src/lib.rs -L "$out" --extern estelunya_sys
}

# linked NAME SOURCE [WORD ..]: a program over the planner's crate and the comparison
linked() { program "$@" --extern compare --extern estelunya_planner; }
