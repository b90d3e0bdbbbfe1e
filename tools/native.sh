#!/bin/sh
# native.sh NAME: proves the static library NAME as `rt lib` does, and compiles the very LLVM module that the prover hands to the kit's compiler for the
# machine at hand: target/native/libNAME.a, and target/native/plain/libNAME.a without optimisation, in which every function stands by itself and its
# calls can be counted. For tests, timings and machines that are not x86-64: what is delivered, and what the gate links, is the archive of `rt lib`.
#
# On the way it writes `proved K of N: CRATE` on standard error, and what it compiles; all that rt says is in target/native/NAME.log.
set -eu
cd "$(dirname "$0")/.."
. tools/progress.sh
[ $# -eq 1 ] || { echo 'native.sh NAME' >&2; exit 2; }
name=$1
machine=$(uname -m)
kit=$(dirname "$(rt doc)")
clang=$kit/toolchain/bin/clang
ar=$kit/toolchain/bin/llvm-ar
out=$PWD/target/native
wrap=$out/wrap
mkdir -p "$wrap/bin" "$out/plain"
proving "$name" "$out/$name.log" lib
# The archive is written anew whenever it or what it stands on has changed.
if [ -f "$out/plain/lib$name.a" ] && [ -z "$(find "crates/$name/out/lib$name.a" -newer "$out/plain/lib$name.a")" ]; then exit 0; fi

# The kit's toolchain, with a stand-in for the compiler that keeps the module it is given.
ln -sfn "$kit/toolchain/lib" "$wrap/lib"
for tool in ld.lld llvm-ar rattle-x64; do ln -sfn "$kit/toolchain/bin/$tool" "$wrap/bin/$tool"; done
cat >"$wrap/bin/clang" <<WRAP
#!/bin/sh
for word in "\$@"; do case \$word in *.bc | *.ll) [ -f "\$word" ] && cp "\$word" "$wrap/module.bc" ;; esac; done
exec "$clang" "\$@"
WRAP
chmod +x "$wrap/bin/clang"

# --extern words for the crates that NAME names in crates.txt, and the folders of all libraries
# shellcheck disable=SC2013 # the crates are words
externs() {
    for crate in $(sed -n "s/^$name staticlib: *//p" crates.txt); do echo "--extern $crate=crates/$crate/out/rlib/$crate.rlib"; done
    for folder in crates/*/out/rlib; do echo "-L dependency=$folder"; done
}

echo "native.sh: making the module of $name, which takes a minute or two" >&2
rm -f "$wrap/module.bc"
# shellcheck disable=SC2046 # externs are words
"$kit/bin/rattle" build --crate-name "$name" "crates/$name/src/lib.rt" --extern "std=$kit/rlibs/std.rlib" $(externs) \
    -L "dependency=$kit/rlibs" --antt-project "$kit/rattle/logic/antt-project.json" --logic-built "$kit/logic_built" \
    --toolchain "$wrap" --crate-type staticlib --backend llvm -o "$out/lib$name-x86_64.a" >>"$out/$name.log" 2>&1 || { cat "$out/$name.log" >&2; exit 1; }
[ -f "$wrap/module.bc" ] || { echo 'native.sh: the module was not seen' >&2; exit 1; }

# The module as text, for this machine.
"$clang" --target=x86_64-unknown-linux-gnu -S -emit-llvm -O0 -Xclang -disable-llvm-passes -x ir "$wrap/module.bc" -o "$out/$name.ll"
sed -i -e "s/^target triple.*/target triple = \"$machine-unknown-linux-gnu\"/" -e '/^target datalayout/d' \
    -e 's/"target-cpu"="[^"]*"//g; s/"target-features"="[^"]*"//g' "$out/$name.ll"

# An answer of over 16 bytes comes back through a pointer: on x86-64 the first argument, which the module writes out; elsewhere that argument has a place
# of its own, which the mark `sret` gives it.
if [ "$machine" != x86_64 ]; then
    awk '/^define noundef ptr @/ { sub(/define noundef ptr/, "define void"); sub(/\(ptr noundef %/, "(ptr noundef sret([64 x i8]) %"); large = 1 }
        large && /^ *ret ptr / { sub(/ret ptr .*/, "ret void") }
        /^}/ { large = 0 }
        { print }' "$out/$name.ll" >"$out/$name.marked"
    mv "$out/$name.marked" "$out/$name.ll"
fi

# archive DIRECTORY LEVEL
archive() {
    "$clang" --target="$machine-unknown-linux-gnu" "$2" -fPIC -ffunction-sections -Wno-override-module -c "$out/$name.ll" -o "$1/$name.o"
    rm -f "$1/lib$name.a"
    "$ar" crs "$1/lib$name.a" "$1/$name.o"
}
echo "native.sh: compiling it for $machine" >&2
archive "$out" -O3
archive "$out/plain" -O0
echo "target/native/lib$name.a: $name for $machine"
