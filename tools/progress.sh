# Sourced from the repository's root, by install.sh and native.sh: rt with its progress.
#
#   proving CRATE LOG WORD..   runs `rt WORD..` in the crate's folder; on standard error `proved K of N: CRATE` for each crate that CRATE stands on and for itself; all that rt says is in LOG, and shown if it fails
#
# shellcheck shell=sh

# The crate and all that it stands on, by crates.txt.
crate_count() {
    awk -v crate="$1" -F '[: ]+' '/^[a-z]/ { sub(/ staticlib:/, ":"); below[$1] = $0 }
        function take(crate, names, i) {
            if (crate in taken || !(crate in below)) return
            taken[crate] = ++count
            split(below[crate], names, /[: ]+/)
            for (i in names) take(names[i])
        }
        END { take(crate); print count }' crates.txt
}

# A pipe has the status of its last part: it is told of rt's. What rt says of a crate begins with how many jobs it has, and ends with the verdict.
proving() {
    proving_crate=$1
    proving_log=$2
    proving_count=$(crate_count "$1")
    shift 2
    : >"$proving_log"
    { (cd "crates/$proving_crate" && rt "$@") 2>&1 || echo 'progress: rt failed'; } | {
        k=0
        failed=0
        crate=$proving_crate
        while IFS= read -r line; do
            printf '%s\n' "$line" >>"$proving_log"
            case $line in
            'rt: chose '*' for '*)
                crate=${line##* for }
                continue
                ;;
            'logic=proved '*) ;;
            'progress: rt failed')
                failed=1
                continue
                ;;
            *) continue ;;
            esac
            k=$((k + 1))
            echo "proved $k of $proving_count: $crate" >&2
        done
        exit "$failed"
    } || {
        cat "$proving_log" >&2
        return 1
    }
}
