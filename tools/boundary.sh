#!/bin/sh
# boundary.sh [--write]: what is said of the boundary in several places comes from two: declarations and values from the Rattle source, what they mean from the
# comments of include/estelunya.h. From these it writes the header's structures, prototypes and constants, planner/sys/src/raw.rs and planner/sys/src/layout.rs.
#
# Without --write it only compares, and fails with the difference if one of the three is not what it would write.
#
# A further answer or function: declare it in the Rattle source, and put its comment into the header with a line `size_t estelunya_name();`, or with
# `typedef struct EstelunyaName {`, a line `x number; /* what it is */` for each field, and `} EstelunyaName;`. A constant: `#define ESTELUNYA_NAME 0 /* what it is */`, with
# 0u where it is a word and no place or count.
set -eu
cd "$(dirname "$0")/.."
rattle=crates/estelunya/src/lib.rt
header=include/estelunya.h
raw=planner/sys/src/raw.rs
layout=planner/sys/src/layout.rs
made=target/boundary
mkdir -p "$made"

. tools/boundary/declarations.sh
of_rattle "$rattle" >"$made/declarations"
constants_of_loader >"$made/constants"
all_said "$rattle" "$made/declarations"

write() { awk -v out="$1" -f tools/boundary/boundary.awk "$made/declarations" "$made/constants" "$2" >"$3"; }
write header "$header" "$made/header"
write raw "$made/header" "$made/raw"
write layout "$made/header" "$made/layout"

if [ "${1:-}" = --write ]; then
    cp "$made/header" "$header"
    cp "$made/raw" "$raw"
    cp "$made/layout" "$layout"
fi
for pair in "$header:header" "$raw:raw" "$layout:layout"; do
    diff -u "${pair%:*}" "$made/${pair#*:}" || { echo "boundary.sh: ${pair%:*} is not what the Rattle source and the header's comments say: tools/boundary.sh --write" >&2; exit 1; }
done
echo "boundary: $(grep -c ^struct "$made/declarations") answers, $(grep -c ^fn "$made/declarations") functions and $(grep -c '^pub const' "$layout") constants are those of the Rattle source"
