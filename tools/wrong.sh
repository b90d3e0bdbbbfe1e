#!/bin/sh
# wrong.sh [CRATE ..]: the wrong programs of the must-fail edits, of these crates or of all: each with its sentence, the file that it changes (src/ is
# code, specs/ a statement), and the declaration of the proofs that must refuse it. Proves nothing: that each is refused there says tools/refused.py.
# Ends with 'N wrong programs in M edits'.
set -eu
cd "$(dirname "$0")/../crates"
[ $# -gt 0 ] || set -- *

for crate in "$@"; do
    [ -d "$crate" ] || { echo "no crate $crate" >&2; exit 1; }
done
for crate in "$@"; do
    for edit in "$crate"/must-fail/*.edit; do
        [ ! -f "$edit" ] || echo "$edit"
    done
done | xargs -r awk '
    function ended() {
        if (name != "") printf "%s/%s\n    %s\n    changes %s, refused at %s\n", crate, name, sentence, file, place
        name = ""
    }
    FNR == 1 { ended(); crate = FILENAME; sub(/\/.*/, "", crate); edits++ }
    /^wrong: / { ended(); name = $2; sentence = file = place = ""; programs++ }
    /^# / && place == "" { sentence = sentence (sentence == "" ? "" : " ") substr($0, 3) }
    /^refused at: / { place = $3 ", " $4 }
    /^file: / && file == "" { file = $2 }
    END { ended(); print programs " wrong programs in " edits " edits" }'
