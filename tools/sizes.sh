#!/bin/sh
# sizes.sh: of each crate of crates.txt its functions, lines of code, definitions, laws and proof files (without blanks, comments, `use` and `mod` lines), must-fail edits and wrong programs.
set -eu
cd "$(dirname "$0")/.."

# lines FILE..: how many are neither blank nor a comment nor an import
lines() {
    [ $# = 0 ] && { echo 0; return; }
    cat -- "$@" | grep -vcE '^[[:space:]]*($|--|//|(ghost |pub )?use |pub use |(pub )?mod )' || true
}

printf '%-20s %5s %6s %6s %6s %7s %6s %6s\n' crate fns code specs laws proofs edits wrong
sed -nE 's,^([a-z_0-9]+)( staticlib)?:.*,\1,p' crates.txt | while read -r crate; do
    dir=crates/$crate
    fns=$(cat "$dir"/src/*.rt | grep -cE '^ *(pub )?(extern "C" )?fn ' || true)
    specs=$(find "$dir/specs" -name '*.antt' ! -name Lib.antt 2>/dev/null | sort)
    laws=$(find "$dir/proofs" -maxdepth 1 -name '*.antt' ! -name Lib.antt 2>/dev/null | sort)
    proofs=$(find "$dir/proofs" -mindepth 2 -name '*.antt' 2>/dev/null | sort)
    edits=$(find "$dir/must-fail" -name '*.edit' 2>/dev/null | wc -l)
    wrong=$(cat "$dir"/must-fail/*.edit 2>/dev/null | grep -c '^wrong: ' || true)
    # shellcheck disable=SC2086
    printf '%-20s %5s %6s %6s %6s %7s %6s %6s\n' "$crate" "$fns" "$(lines "$dir"/src/*.rt)" "$(lines $specs)" "$(lines $laws)" "$(lines $proofs)" "$edits" "$wrong"
done | awk '{ print; for (i = 2; i <= 8; i++) s[i] += $i; n++ } END { printf "%-20s %5d %6d %6d %6d %7d %6d %6d\n", n " crates", s[2], s[3], s[4], s[5], s[6], s[7], s[8] }'
