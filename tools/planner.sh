#!/bin/sh
# planner.sh [SEED COUNT [FIRST]]: makes the planner's crate and the comparison with the archive, and runs them: the crate's tests and documentation, the data desk's program
# and its tests, README's program, the program in C, the depth of the stack, the crate with cargo, the trial week, the standard's examples, 2,000 cases of each of the programs of requests.sh that are named below, the declarations (drift.sh), and COUNT generated cases of a SEED from case FIRST on.
# Ends with 'planner.sh: ok'.
set -eu
cd "$(dirname "$0")/.."
seed=${1:-1} count=${2:-20000} first=${3:-0}
. tools/archive.sh

# The programs of requests.sh whose functions the archive has; a further one is named here when its functions land.
requests='indexes quick boards quick_boards connections quick_connections writes isolation'

# The crates as a user of cargo has them, where there is cargo: form, lints, documentation, tests.
as_cargo_user() {
    for tool in cargo cargo-fmt cargo-clippy; do
        command -v "$tool" >/dev/null || { say "no $tool on the path, so the crate is not tried with cargo"; return 0; }
    done
    for crate in planner desk; do
        set -- --manifest-path "$crate/Cargo.toml"
        cargo fmt "$@" --all --check
        set -- "$@" --quiet --workspace --target-dir
        ESTELUNYA_LIB=$ARCHIVE cargo clippy "$@" "$out/cargo" --all-targets -- -D warnings
        ESTELUNYA_LIB=$ARCHIVE cargo test "$@" "$out/cargo"
        # The documentation, and a look at the code, need no archive; that there is none is a warning.
        for without in 'doc --no-deps' check; do
            # shellcheck disable=SC2086 # a command and its option
            ESTELUNYA_LIB=$out/none RUSTDOCFLAGS='-D warnings' cargo $without "$@" "$out/cargo-none" 2>"$out/none.txt" || { cat "$out/none.txt" >&2; die "$crate: cargo $without without an archive"; }
        done
    done
}

planner_library
compare_library

# The cases take longest, so they run beside the rest.
linked delivery compare/src/bin/delivery.rs
run "$out/delivery" "$seed" "$count" "$first" >"$out/delivery.txt" 2>&1 &
cases=$!
trap 'kill "$cases" 2>/dev/null || true' EXIT

linked trial_week planner/examples/trial_week.rs
linked quay_screen planner/examples/quay_screen.rs
tests='boards connections dates days handles helper index keys largest names reading refusals room rows runs table'
for test in $tests; do linked "$test" "planner/tests/$test.rs" --test; done
program own_tests planner/src/lib.rs --test --extern estelunya_sys
linked desk desk/src/main.rs
linked desk_tests desk/src/main.rs --test
# shellcheck disable=SC2016 # the marks of a block
sed -n '/^```rust$/,/^```$/p' README.md | sed '/^```/d' >"$out/readme.rs"
linked readme "$out/readme.rs"
linked standard compare/src/bin/standard.rs

# An emulator cannot run the crate's documentation. It reads the sample delivery from the crate's directory, as with cargo.
if [ -z "$emulator" ]; then
    (cd planner && rustdoc --edition 2021 --test src/lib.rs --crate-name estelunya_planner -L "../$out" --extern estelunya_planner --extern estelunya_sys)
    as_cargo_user
fi
for test in $tests; do run "$out/$test" --quiet; done
run "$out/own_tests" --quiet
run "$out/desk_tests" --quiet

# desk_says STATUS LINE WORD..: the data desk's program, asked by these words, begins with this line and ends with this status
desk_says() {
    wanted="$1 $2"
    shift 2
    status=0
    said=$(run "$out/desk" "$@") || status=$?
    [ "$status $(printf '%s\n' "$said" | head -1)" = "$wanted" ] || die "desk $*: status $status, $said"
    echo "  desk: ${wanted#* }, status $status"
}
mended=$out/delivery-of-desk
week='accepted days 7 bitfields 1 stops 3 interchange 1 categories 1 services 1 words 82 from 01.12.2025 to 07.12.2025'
rm -rf "$mended"
cp -r crates/ferry/data "$mended"
desk_says 0 "$week" --today 07.12.2025 "$mended"
# The period is over.
desk_says 3 "$week" --today 08.12.2025 "$mended"
# Written back clean, and that loaded again; the trial week's services have 7 lines.
rm -rf "$mended-clean"
run "$out/desk" --today 01.12.2025 --clean "$mended" "$mended-clean" | grep -q '^clean: loaded again from there: the same timetable' || die 'desk --clean'
[ "$(wc -c <"$mended-clean/FPLAN")" = 420 ] || die 'desk --clean: the length of FPLAN'
desk_says 0 "$week" --today 01.12.2025 --compare "$mended" "$mended-clean"
run "$out/desk" --today 01.12.2025 --json "$mended" | grep -q '^{"desk":"[^"]*","status":0,"answer":"accepted",.*}$' || die 'desk --json'
sed -i '2s/%$//' "$mended/FPLAN"
desk_says 1 'refused 4 file 5 line 2 column 59' "$mended"
desk_says 1 'refused 4 file 5 line 2 column 59' --all --most 1 "$mended"
desk_says 2 '' --some "$mended" 2>/dev/null
status=0; run "$out/desk" --today 01.12.2025 crates/ferry/data >/dev/full 2>"$out/full.txt" || status=$?
[ "$status" = 2 ] || die "desk: status $status where nothing can be written"
rm "$mended/UMSTEIGB"
desk_says 2 'unread file 4' "$mended"

# The program in C; what it has to write was worked out by hand from document 01.
c -std=c99 -Wall -Wextra -Wpedantic -Werror -Iinclude include/example.c -L"$ARCHIVE" -lestelunya -o "$out/example"
run "$out/example" >"$out/example.txt"
diff -u include/example.txt "$out/example.txt" || die 'include/example.c does not write include/example.txt'
echo "  include/example.c: $(head -1 "$out/example.txt")"

# The quay screen; what it has to show was worked out by hand.
run "$out/quay_screen" | diff -u planner/examples/quay_screen.txt - || die 'planner/examples/quay_screen.rs does not show planner/examples/quay_screen.txt'

# How deep a load goes on the stack, by the archive itself: at most what docs/MEASURED.md says.
c -std=c11 -Wall -Wextra -Wpedantic -Werror -Iinclude tools/stack.c -L"$ARCHIVE" -lestelunya -lpthread -o "$out/stack"
run "$out/stack" 32768

run "$out/readme"
run "$out/trial_week"
run "$out/standard"
for name in $requests; do
    linked "$name" "compare/src/bin/$name.rs"
    run "$out/$name" 1 2000 >"$out/$name.txt" || { cat "$out/$name.txt"; die "$name differs"; }
    tail -1 "$out/$name.txt"
done
tools/drift.sh
trap - EXIT
status=0
wait "$cases" || status=$?
cat "$out/delivery.txt"
[ "$status" = 0 ] || die 'the archive and the reader differ'
echo "planner.sh: ok"
