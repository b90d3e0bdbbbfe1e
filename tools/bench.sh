#!/bin/sh
# bench.sh [MIB ..]: times the archive beside the independent reader, with an FPLAN of each size (0.1 1 4). Says first what it was made by and runs on.
set -eu
cd "$(dirname "$0")/.."
[ $# -gt 0 ] || set -- 0.1 1 4
. tools/archive.sh

planner_library
compare_library
linked bench compare/src/bin/bench.rs
echo "$(rust --version); $(uname -m), $(getconf _NPROCESSORS_ONLN) cores"
EMULATOR=$emulator
export EMULATOR
run "$out/bench" "$@"
