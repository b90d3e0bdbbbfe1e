#!/bin/sh
# clauses.sh: deletes each `ensures` of the exported functions, and prints which theorems of estelunya/proofs then fall. Not in the gate: it checks the crate three times, in a copy, over what is proved already (run `rt check` first).
#
# A theorem speaks of the contracts that it names, so the first clauses of all functions are deleted at once, then the second ones, then the third: what falls of a function's own theorem (`FUNCTION.Reads` in the file's head) is its own
# clause's doing. Prints a line `FUNCTION CLAUSE: THEOREMS` for each; ends with 'clauses.sh: N clauses, each missed', or names those whose function has no theorem that fell.
set -eu
cd "$(dirname "$0")/.."
# outside the tree: rt ci reads no second list of crates below it
copy=$(mktemp -d)
trap 'rm -rf "$copy"' EXIT
cp -r crates crates.txt "$copy"

# without NUMBER: the source without the NUMBERth clause of each exported function; what it deleted goes to the file `deleted`
without() {
    awk -v number="$1" -v deleted="$copy/deleted" '
        /extern "C" fn / { name = $0; sub(/.* fn /, "", name); sub(/\(.*/, "", name); clause = 0 }
        /^{/ { name = "" }
        name != "" && /^    ensures / {
            clause++
            if (clause == number) {
                label = $2 == "{" ? "answer" : $2
                print name, label > deleted
                within = 1
            }
        }
        # a clause may go over several lines
        within { within = !/}$/; next }
        { print }' crates/estelunya/src/lib.rt >"$copy/crates/estelunya/src/lib.rt"
}

# fallen: each theorem that fell, as `THEOREM`, from the log of the check
fallen() { sed -n 's/.*\/proofs\/\([A-Z][A-Za-z]*\)\.antt:.*error: `\([^`]*\)`.*/\1 \2/p' "$copy/log" | sort -u; }

# theorems FUNCTION: the theorems whose statement names the function's contract, by the name that the file gives `FUNCTION.Reads`
theorems() {
    for file in crates/estelunya/proofs/*.antt; do
        part=$(basename "$file" .antt)
        awk -v of="proofs.$1.Reads." -v part="$part" '
            index($0, of) && match($0, /Learnt as [a-z0-9-]+/) { allowed = substr($0, RSTART + 10, RLENGTH - 10) }
            /^pub [^ ]+ :/ { theorem = $2 }
            theorem != "" && index($0, theorem " ") == 1 { theorem = "" }
            allowed != "" && theorem != "" && index($0 " ", " " allowed " ") { print part, theorem }' "$file"
    done
}

clauses=0 missed=0
for number in 1 2 3; do
    : >"$copy/deleted"
    without "$number"
    (cd "$copy/crates/estelunya" && rt check --allow-holes >../../log 2>&1) || true
    fallen >"$copy/fallen"
    while read -r name label; do
        clauses=$((clauses + 1))
        theorems "$name" | sort -u >"$copy/own"
        found=$(comm -12 "$copy/own" "$copy/fallen" | awk '{ printf "%s%s (%s)", sep, $2, $1; sep = ", " }')
        [ -n "$found" ] || { found='no theorem fell'; missed=$((missed + 1)); }
        echo "$name $label: $found"
    done <"$copy/deleted"
done
[ "$missed" = 0 ] || { echo "clauses.sh: $missed of $clauses clauses are not missed"; exit 1; }
echo "clauses.sh: $clauses clauses, each missed"
