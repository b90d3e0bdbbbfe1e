#!/bin/sh
# drift.sh: fails, and says where, if what is said of the boundary in several places drifts apart.
#
# By text: include/estelunya.h, planner/sys/src/raw.rs and planner/sys/src/layout.rs are what boundary.sh writes from the Rattle source and the header's comments;
# the limits of the header are the loader's; and what the ordinary loader names as the header does has the header's value.
#
# The fields of lines: the desk's tables have the columns of crates/columns/specs/LineFields, row by row as in crates/forms/specs/Columns.
#
# By the compilers: a C side and a Rust side, both written from the Rattle source (drift/sides.awk) and linked with the archive, agree on layouts, prototypes and
# answers. The refusals' texts: those of include/estelunya_texts.h are the crate's.
set -eu
cd "$(dirname "$0")/.."
. tools/archive.sh
. tools/boundary/declarations.sh
said=$out/drift
mkdir -p "$said"

# ---- by text

tools/boundary.sh

constants_rust planner/sys/src/layout.rs >"$said/header"
constants_of_loader >"$said/loader"
constants_rust docs/ordinary-loader/src/*.rs >"$said/ordinary"

# held LIST AGAINST PATTERN: each constant of LIST that has the PATTERN and is in AGAINST has the same value there; with `all`, each is there
held() {
    awk -v list="$1" -v against="$2" -v pattern="$3" -v all="${4:-}" '
        FNR == NR { value[$1] = $2; next }
        $1 !~ pattern || !($1 in value) && !all { next }
        { seen++ }
        ($1 in value) && value[$1] == $2 { next }
        { printf "drift.sh: %s is %s in the %s, and %s in the %s\n", $1, $2, list, ($1 in value) ? value[$1] : "missing", against; bad = 1 }
        END { if (!seen) { printf "drift.sh: no constants are seen in the %s\n", list; bad = 1 } exit bad }' "$said/$2" "$said/$1" >&2 || exit 1
}
held header loader '_WORDS$|^MOST_|^KIND_' all
held ordinary header .
echo "drift: the limits are the loader's, and the ordinary loader has the header's constants"

# ---- the fields of lines, by text: a line "TABLE FIRST LAST" for each row of the table of forms, and of the desk's tables, which have no row for what says the
# kind of a line of FPLAN and none for what follows its "%"

fields_rattle() {
    awk 'FNR == NR { if ($2 == "=" && $3 ~ /^[0-9]+$/) { first[$1] = $3; last[$1] = NF == 5 ? $5 : "end" } next }
        /^[a-z_]*_columns =$/ { table = $1 }
        $1 == "∷" { $1 = ""; $0 = $0 }
        $1 == "rest_rule" { $1 = $2; $2 = "is" }
        $2 == "is" && $1 != "plan_kind" && $1 != "plan_rest" { print table, first[$1], last[$1] }' crates/columns/specs/LineFields.antt crates/forms/specs/Columns.antt
}

fields_desk() {
    awk '/^const [A-Z_]*: &\[Field\]/ { table = $2; sub(":", "", table) }
        { while (match($0, /\([0-9]+, ([0-9]+|usize::MAX), "/)) {
            split(substr($0, RSTART + 1, RLENGTH - 2), field, ", "); $0 = substr($0, RSTART + RLENGTH)
            print table, field[1], field[2] ~ /MAX/ ? "end" : field[2] + 0 } }' "$1" |
        sed -e 's/^DATES /date_columns /; s/^BIT_FIELDS /bit_field_columns /; s/^STOPS /stop_columns /; s/^RECORDS /interchange_columns /; s/^CATEGORIES /class_columns /' \
            -e 's/^Z /service_columns /; s/^T /frequency_columns /; s/^G /category_columns /; s/^A /attribute_columns /; s/^CALL /call_columns /'
}

desk=desk/src/lines.rs
fields_rattle >"$said/fields"
fields_desk "$desk" >"$said/desk"
[ -s "$said/fields" ] || die "no fields are seen in crates/columns and crates/forms"
diff -u "$said/fields" "$said/desk" || die "the fields of crates/columns and of $desk differ"
echo "drift: $(grep -c . "$said/fields") fields of lines agree"

# ---- by the compilers

of_rattle crates/estelunya/src/lib.rt >"$said/rattle"
awk -v side=c -f tools/drift/sides.awk "$said/rattle" >"$said/side.c"
awk -v side=rust -f tools/drift/sides.awk "$said/rattle" >"$said/side.rs"
c -std=c99 -Wall -Wextra -Wpedantic -Werror -Iinclude -c "$said/side.c" -o "$said/side.o"
if command -v c++ >/dev/null; then c++ -std=c++98 -Wall -Wextra -Werror -Iinclude -fsyntax-only -x c++ include/estelunya.h -x c++ include/estelunya_texts.h; fi
planner_library
DRIFT_SIDE=$PWD/$said/side.rs
export DRIFT_SIDE
program layout tools/drift/layout.rs --extern estelunya_planner -C link-arg="$said/side.o"
run "$out/layout"
