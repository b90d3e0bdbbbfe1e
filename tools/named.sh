#!/bin/sh
# named.sh [PAPER ..]: fails, and says what and where, if a paper (README.md, docs/*.md) names what is not in the tree: between backticks a definition, law, function, file or
# wrong program (CRATE/NAME), and a file of the tree without them too. A word is in the tree if it stands in a source, outside the comments. What is made (target/, lib/), and what
# names a file of any crate (src/lib.rt, specs/NAME), is not looked for.
set -eu
cd "$(dirname "$0")/.."
[ $# -gt 0 ] || set -- README.md $(ls docs/*.md | grep -v -e PORT.md -e DESIGN-PASS.md -e LOOK-BACK.md)
files=$(find . \( -name .git -o -name target -o -name out -o -path ./lib \) -prune -o -type f -print | sed 's,^\./,,')
known=$(mktemp)
trap 'rm -f "$known"' EXIT
{
    # files and directories; those of a crate without `crates/`, without ending, and those of its specs/ without that
    echo "$files" | awk -F/ '{ path = $1; print path; for (i = 2; i <= NF; i++) { path = path "/" $i; print path } }' | sort -u |
        sed -e 'p; s,^crates/,,; p; s,\.[a-z]*$,,; p; s,/specs/,/,'
    # wrong programs
    echo "$files" | grep '\.edit$' | xargs awk '/^wrong: / { split(FILENAME, path, "/"); print path[2] "/" $2 }'
    # words
    echo "$files" | grep -v -e '\.md$' -e '\.patch$' -e /data/ | xargs sed -e 's/^ *-- .*//' -e 's/ -- .*//' -e 's,// .*,,' | grep -oE "[A-Za-z][A-Za-z0-9_'#-]*"
} >"$known"

awk '
    function missing(name) { print FILENAME ":" FNR ": " name; bad = 1 }
    FNR == NR { known[$0] = 1; next }
    FNR == 1 { block = code = 0; blank = 1 }
    # a span of backticks may go on in the next line of its paragraph
    FNR == 1 || /^$|^[|#]/ { open = 0 }
    # code: between fences, or indented after a blank line
    /^```/ { block = !block }
    { code = /^    / && (blank || code); blank = /^$/ }
    block || code { next }
    {
        n = split($0, part, "`")
        for (i = 1; i <= n; i++) {
            quoted = i % 2 == 0 ? !open : open
            m = split(part[i], token, /[^A-Za-z0-9_\/.'\''#-]+/)
            for (k = 1; k <= m; k++) {
                name = token[k]
                sub(/[.\/]+$/, "", name)
                if (name in known || name ~ /^crates\/[a-z_]+\/out\/|^(target|lib|src|specs|proofs)\/|[A-Z][A-Z]|_$/) continue
                if (name ~ /^(crates|docs|tools|planner|compare|include)\/|^[a-z_]+\/(specs|proofs|src|must-fail)\/|^[a-z_]+\/[A-Z][A-Za-z]+$/) missing(name)
                else if (quoted && name ~ /^[a-z_]+\/[A-Za-z]|^[A-Za-z][A-Za-z0-9_'\''#-]+$/) missing(name)
            }
        }
        if (n > 0 && n % 2 == 0) open = !open
    }
    END { exit bad }' "$known" "$@"
