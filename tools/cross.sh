# Sourced from the repository's root, by every script that makes or runs a program: how that is done on this machine.
#
# `rt` writes archives and programs for x86-64 on every machine. `for_x86_64` says how programs that link an archive are made and run: on another machine
# by a rustc with a library for x86-64, gcc for x86-64 and an emulator, which are installed where they are missing. `for_machine` says it for programs that
# link none, or an archive of native.sh. Both define
#
#   rust WORD..   rustc       c WORD..   a C compiler       run PROGRAM WORD..       $emulator, if there is one
#
# What is made goes to the directory $out, which the script names.
#
# shellcheck shell=sh disable=SC2034,SC2154,SC2317

goal=x86_64-unknown-linux-gnu
cross_gcc=x86_64-linux-gnu-gcc
cross_emulator=qemu-x86_64

# Debian's rustc, whose library for amd64 is a package; the linker and C library for x86-64; the emulator.
packages='rustc libstd-rust-dev:amd64 gcc-x86-64-linux-gnu libc6-dev-amd64-cross qemu-user'

say() { echo "${0##*/}: $*" >&2; }
die() { say "$*"; exit 1; }

flags='--edition 2021 -O -D warnings'

# shellcheck disable=SC2086 # flags are words, here and below
for_machine() {
    for tool in rustc cc; do
        command -v "$tool" >/dev/null || die "no $tool on the path; the Rust programs are made by rustc, which links them by cc"
    done
    emulator=
    rust() { rustc $flags "$@"; }
    c() { cc "$@"; }
    run() { "$@"; }
}

# shellcheck disable=SC2086 # flags are words
for_x86_64() {
    [ "$(uname -m)" != x86_64 ] || { for_machine; return; }
    has_cross || install_cross >&2
    emulator=$cross_emulator
    rust() { "$cross_rustc" $flags --target "$goal" -C linker="$cross_gcc" "$@"; }
    c() { "$cross_gcc" "$@"; }
    run() { "$emulator" "$@"; }
}

# Sets the first rustc on the path that has a library for x86-64.
find_rustc() {
    for dir in $(printf '%s' "$PATH" | tr : ' ') /usr/bin; do
        cross_rustc=$dir/rustc
        [ -d "$("$cross_rustc" --print target-libdir --target "$goal" 2>/dev/null)" ] && return
    done
    return 1
}

has_cross() { find_rustc && command -v "$cross_gcc" "$cross_emulator" >/dev/null; }

# shellcheck disable=SC2086 # packages are words
install_cross() {
    say "installing $packages"
    [ "$(id -u)" = 0 ] || die 'this needs root'
    dpkg --add-architecture amd64
    apt-get update -q
    DEBIAN_FRONTEND=noninteractive apt-get install -qy --no-install-recommends $packages
    has_cross || die 'the packages are there, but no rustc compiles for x86-64'
}

# proved_archive CRATE: proves it and writes target/staticlib/libCRATE.a. Of two commands of rt in one tree one waits for the other.
proved_archive() {
    mkdir -p target/staticlib
    # shellcheck disable=SC2016 # of the shell that is called
    flock target/rt.lock sh -c 'cd "crates/$1" && rt lib && cp "out/lib$1.a" ../../target/staticlib' rt-lib "$1" >"$out/$1.log" 2>&1 ||
        { cat "$out/$1.log" >&2; die "no archive of $1"; }
}

# library CRATE SOURCE [WORD ..]
library() { rust --crate-type rlib --out-dir "$out" --crate-name "$@"; }

compare_library() { library compare compare/src/lib.rs; }

ordinary_library() { library ordinary_loader docs/ordinary-loader/src/lib.rs; }

# program NAME SOURCE [WORD ..]: over libraries that are made
program() { rust -L "$out" -o "$out/$1" --crate-name "$@"; }
