#!/bin/sh
# Rust programs of compare/. cross.sh says how they are made and run.
#
#   tools/host.sh run CRATE PROGRAM [WORD..]      links compare/src/bin/PROGRAM.rs to the archive of CRATE, and runs it
#   tools/host.sh ordinary [SEED COUNT [FIRST]]   compares the ordinary loader of docs/ with the reader (1 20000); no archive
#   tools/host.sh selftest                        runs the tests of compare/, and `ordinary`; no archive
#
# What it makes stays below target/host/.
set -eu
cd "$(dirname "$0")/.."
. tools/cross.sh

linked_run() {
    crate=$1
    name=$2
    shift 2
    proved_archive "$crate"
    compare_library
    program "$name" "compare/src/bin/$name.rs" --extern compare -L target/staticlib -l "static=$crate"
    say "$name: $(rust --version) for x86-64${emulator:+, run by $emulator}"
    run "$out/$name" "$@"
}

selftest() {
    program selftest compare/src/lib.rs --test
    run "$out/selftest"
    ordinary
}

ordinary() {
    [ $# -gt 0 ] || set -- 1 20000
    compare_library
    ordinary_library
    program ordinary compare/src/bin/ordinary.rs --extern compare --extern ordinary_loader
    run "$out/ordinary" "$@"
}

usage='run CRATE PROGRAM [WORD..], ordinary [SEED COUNT [FIRST]], or selftest'
command=${1:-}
[ $# -eq 0 ] || shift
case $command in
run)
    [ $# -ge 2 ] || die "$usage"
    out=target/host
    mkdir -p "$out"
    for_x86_64
    linked_run "$@"
    ;;
ordinary | selftest)
    out=target/host/own
    mkdir -p "$out"
    for_machine
    "$command" "$@"
    ;;
*) die "$usage" ;;
esac
