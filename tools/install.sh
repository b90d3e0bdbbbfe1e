#!/bin/sh
# install.sh [DIRECTORY]: proves the library and puts libestelunya.a and its headers into DIRECTORY (lib/); where there is cargo also the data desk's program, `desk`, with its REFUSALS.md. On a machine that is
# not x86-64 the archive is the proved module compiled for the machine at hand (native.sh). What stands in lib/ stays, and the planner's crate links it where target/ has no archive.
#
# On the way it writes `proved K of N: CRATE` for each crate that is proved; all that rt says is in target/install.log, and is shown if it fails. What was made of these very sources is not made again.
set -eu
cd "$(dirname "$0")/.."
. tools/progress.sh
place=${1:-lib}
mkdir -p target "$place"
place=$(cd "$place" && pwd)

command -v rt >/dev/null || {
    echo 'install.sh: no rt on the path: it is the command of the Rattle kit (README.md)' >&2
    exit 1
}

# What the archive is made of, and the archive itself.
sums() {
    rt version
    uname -m
    find crates crates.txt include -type f ! -path '*/out/*' | LC_ALL=C sort | xargs cksum | cksum
    cksum <"$place/libestelunya.a"
}

if [ -f "$place/libestelunya.a" ] && [ "$(sums)" = "$(cat "$place/made-of" 2>/dev/null)" ]; then
    echo "install.sh: $place/libestelunya.a is of these sources: nothing to prove" >&2
else
    rm -f "$place/made-of"
    if [ "$(uname -m)" = x86_64 ]; then
        proving estelunya target/install.log lib
        made=crates/estelunya/out
    else
        tools/native.sh estelunya
        made=target/native
    fi
    cp "$made/libestelunya.a" "$place"
    sums >"$place/made-of"
fi
cp include/estelunya.h include/estelunya_texts.h "$place"
echo "install.sh: $place/libestelunya.a"

if command -v cargo >/dev/null; then
    ESTELUNYA_LIB=$place cargo build --quiet --release --manifest-path desk/Cargo.toml --target-dir target/desk
    cp target/desk/release/desk docs/REFUSALS.md "$place"
    echo "install.sh: $place/desk, with REFUSALS.md"
else
    echo 'install.sh: no cargo on the path, so the data desk'"'"'s program is not made' >&2
fi
