# Sourced from the repository's root: what the Rattle source declares of the boundary, by text.
#
# shellcheck shell=sh

# A source without // comments, in one line.
bare_rust() { sed -e 's|//.*||' "$1" | tr -s ' \t\n' ' '; }

# In Rattle `result` is what a function answers, so words that are lent for a result are `res` there, and `result` in the header.
# One line for each answer, "struct NAME { field: type, .. }", and each function, "fn name(parameter: type, ..) -> NAME".
tidy() { sed -e 's/ *, */, /g; s/, *\([})]\)/ \1/g; s/( */(/g; s/ *)/)/g; s/{ */{ /g; s/ *}/ }/g' | sort; }

of_rattle() {
    bare_rust "$1" | grep -o '#\[repr(C)\] #\[derive(Clone, Copy)\] pub struct [A-Za-z]* {[^}]*}' | sed -e 's/#\[repr(C)\] #\[derive(Clone, Copy)\] pub //; s/pub //g' | tidy
    bare_rust "$1" | grep -o '#\[unsafe(no_mangle)\] pub extern "C" fn [a-z_]*([^)]*) -> [A-Za-z0-9]*' | sed -e 's/.*extern "C" //' -e 's/\([(,] *\)res: /\1result: /g' \
        -e 's/\([a-z_]*\): &mut \[\([a-z0-9]*\)\]/\1: *mut \2, \1_len: usize/g' \
        -e 's/\([a-z_]*\): &\[\([a-z0-9]*\)\]/\1: *const \2, \1_len: usize/g' | tidy
}

# all_said SOURCE DECLARATIONS: a declaration that the patterns above do not see would be missed everywhere: each name of the source is there.
all_said() {
    for name in $(bare_rust "$1" | grep -o 'extern "C" fn [a-z_]*\|pub struct [A-Za-z]*' | sed 's/.* //'); do
        grep -q "^\(struct\|fn\) $name\>" "$2" || { echo "$name of $1 is not seen" >&2; exit 1; }
    done
}

# A line "NAME VALUE" for each constant that is a number.
constants_rust() { sed -n 's/^ *\(pub \)\{0,1\}const \([A-Z_]*\): u[a-z0-9]* = \([0-9_]*\);$/\2 \3/p' "$@" | awk '{ gsub(/_/, "", $2); print }'; }

# The loader takes the words of a bit field's bits, the longest period and the longest file from the ground. It names both words of an administration, the header only where they begin.
# The rows of a board are those that the crate sort sorts, and the parts of a connection stand in their own crate.
constants_of_loader() {
    {
        constants_rust crates/timetable/src/*.rt crates/bitfield/src/lib.rt crates/calendar/src/lib.rt crates/forms/src/lib.rt
        constants_rust crates/sort/src/lib.rt | sed 's/^ROW_WORDS /BOARD_ROW_WORDS /'
        constants_rust crates/connections/src/lib.rt
        constants_rust crates/estelunya/src/lib.rt | grep '^VERSION '
    } | awk '$1 == "HIGH_AT" || $1 == "LOW_AT" { $2 -= $1 == "LOW_AT"; $1 = "ADMINISTRATION_AT" } { print }'
}
