# The boundary in C and in Rust, from the declarations of the Rattle source and the comments of the header.
#
#   awk -v out=header|raw|layout -f boundary.awk DECLARATIONS CONSTANTS HEADER
#
# DECLARATIONS has a line `struct NAME { field: type, .. }` or `fn name(parameter: type, ..) -> NAME or type` for each answer and function, CONSTANTS a line
# `NAME VALUE`. Of HEADER the comments are taken, and what of its constants the Rattle source does not name; structures, prototypes and all other values are
# written anew. What a field, a function or a constant means is so said once, in the header, and what it is in the Rattle source.

BEGIN {
    c["u8"] = "uint8_t"
    c["u32"] = "uint32_t"
    c["usize"] = "size_t"
}

function fail(why) {
    print "boundary.awk: " why | "cat >&2"
    failed = 1
    exit 1
}

FILENAME == ARGV[1] && /^struct / {
    fields[$2] = substr($0, index($0, "{ ") + 2, index($0, " }") - index($0, "{ ") - 2)
    next
}

FILENAME == ARGV[1] && /^fn / {
    name = substr($2, 1, index($2, "(") - 1)
    given[name] = substr($0, index($0, "(") + 1, index($0, ")") - index($0, "(") - 1)
    answer[name] = $NF
    next
}

FILENAME == ARGV[2] {
    value[$1] = $2
    next
}

# ---- the header, as a list of items: what[i] is text, comment, define, product, struct or fn

function item(kind, text) {
    what[++count] = kind
    said[count] = text
}

function comment_in(line) { return match(line, /\/\*.*\*\//) ? substr(line, RSTART + 3, RLENGTH - 6) : "" }

in_comment {
    if (/\*\//) { in_comment = 0; next }
    line = $0
    sub(/^ \* ?/, "", line)
    said[count] = said[count] (said[count] == "" ? "" : "\n") line
    next
}

in_struct {
    if (/^}/) { in_struct = 0; next }
    line = $0
    sub(/;.*/, "", line)
    sub(/.* /, "", line)
    field_comment[said[count], line] = comment_in($0)
    next
}

in_fn {
    in_fn = !/\);$/
    next
}

/^\/\*/ && !/\*\/$/ { item("comment", ""); in_comment = 1; next }
/^\/\* .* \*\/$/ { item("comment", comment_in($0)); next }

/^typedef struct Estelunya/ {
    item("struct", substr($3, length("Estelunya") + 1))
    in_struct = 1
    next
}

/^(Estelunya[A-Za-z]+|uint32_t|size_t) estelunya_[a-z_]+\(/ {
    name = $2
    sub(/\(.*/, "", name)
    item("fn", name)
    in_fn = !/\);$/
    next
}

/^#define ESTELUNYA_[A-Z_]+ [0-9]+u?( |$)/ {
    item("define", substr($2, length("ESTELUNYA_") + 1))
    unsigned[said[count]] = $3 ~ /u$/
    number[said[count]] = $3 + 0
    define_comment[said[count]] = comment_in($0)
    next
}

/^#define ESTELUNYA_[A-Z_]+ \(ESTELUNYA_[A-Z_]+ \* ESTELUNYA_[A-Z_]+\)$/ {
    item("product", substr($2, length("ESTELUNYA_") + 1))
    factors = $0
    gsub(/.*\(|\)|ESTELUNYA_/, "", factors)
    product[said[count]] = factors
    next
}

{ item("text", $0) }

# ---- what both languages have of a declaration

# The parts of "a: t, b: u" into names and types; gives how many there are.
function parts(text, n, i, pair) {
    n = split(text, pairs, /, */)
    for (i = 1; i <= n; i++) {
        split(pairs[i], pair, /: */)
        names[i] = pair[1]
        types[i] = pair[2]
    }
    return n
}

function number_of(name) { return name in value ? value[name] : number[name] }

# Digits in threes, where there are more than four.
function grouped(digits, done) {
    if (length(digits) < 5) return digits
    while (length(digits) > 3) {
        done = "_" substr(digits, length(digits) - 2) done
        digits = substr(digits, 1, length(digits) - 3)
    }
    return digits done
}

# ---- the header

function c_type(type, words) {
    split(type, words, " ")
    if (words[1] == "*const") return "const " c[words[2]] " *"
    if (words[1] == "*mut") return c[words[2]] " *"
    return c[type] " "
}

function c_struct(name, n, i, widest, text) {
    n = parts(fields[name])
    for (i = 1; i <= n; i++) {
        shown[i] = "    " c[types[i]] " " names[i] ";"
        if (length(shown[i]) > widest) widest = length(shown[i])
    }
    text = "typedef struct Estelunya" name " {\n"
    for (i = 1; i <= n; i++) {
        if (field_comment[name, names[i]] == "") fail("the header does not say what " names[i] " of " name " is")
        text = text sprintf("%-" widest "s /* %s */\n", shown[i], field_comment[name, names[i]])
    }
    return text "} Estelunya" name ";"
}

# A pointer with its length has a line of its own, and so has a date; other numbers share one.
function c_fn(name, n, i, text, before) {
    n = parts(given[name])
    text = (answer[name] in c ? c[answer[name]] : "Estelunya" answer[name]) " " name "("
    if (n == 0) return text "void);"
    if (given[name] !~ /\*/) {
        for (i = 1; i <= n; i++) text = text (i > 1 ? ", " : "") c_type(types[i]) names[i]
        return text ");"
    }
    for (i = 1; i <= n; i++) {
        before = i == 1 ? "\n    " : (types[i] ~ /^\*/ || names[i - 1] ~ /_len$|^year$/ || names[i] == "day") ? ",\n    " : ", "
        text = text before c_type(types[i]) names[i]
    }
    return text ");"
}

# The constants of one block, their comments one under the other.
function c_defines(first, i, widest, text) {
    for (i = first; what[i] == "define"; i++) {
        shown[i] = "#define ESTELUNYA_" said[i] " " number_of(said[i]) (unsigned[said[i]] ? "u" : "")
        if (define_comment[said[i]] != "" && length(shown[i]) > widest) widest = length(shown[i])
    }
    for (i = first; what[i] == "define"; i++) {
        if (define_comment[said[i]] == "") print shown[i]
        else printf "%-" widest "s /* %s */\n", shown[i], define_comment[said[i]]
    }
    return i - 1
}

function c_comment(text) {
    if (text !~ /\n/ && length(text) < 154) return "/* " text " */"
    gsub(/\n/, "\n * ", text)
    gsub(/ \* \n/, " *\n", text)
    return "/*\n * " text "\n */"
}

function header(i) {
    for (i = 1; i <= count; i++) {
        if (what[i] == "comment") print c_comment(said[i])
        else if (what[i] == "struct") print c_struct(said[i])
        else if (what[i] == "fn") print c_fn(said[i])
        else if (what[i] == "define") i = c_defines(i)
        else if (what[i] == "product") {
            text = product[said[i]]
            gsub(/[A-Z_]+/, "ESTELUNYA_&", text)
            print "#define ESTELUNYA_" said[i] " (" text ")"
        } else print said[i]
    }
}

# ---- raw.rs

function sentence(text) {
    gsub(/ESTELUNYA_/, "", text)
    return toupper(substr(text, 1, 1)) substr(text, 2) (text ~ /\.$/ ? "" : ".")
}

function marked(mark, text) {
    gsub(/ESTELUNYA_/, "", text)
    gsub(/\n/, "\n" mark " ", text)
    text = mark " " text
    gsub(/ \n/, "\n", text)
    return text
}

# The functions that have this answer.
function answer_of(name, i, list, n, text) {
    for (i = 1; i <= count; i++) if (what[i] == "fn" && answer[said[i]] == name) list[++n] = "[`" said[i] "`]"
    for (i = 1; i <= n; i++) text = text (i == 1 ? "" : i == n ? " and " : ", ") list[i]
    return text
}

function rust_struct(name, n, i) {
    print "/// The answer of " answer_of(name) "."
    print "#[repr(C)]\n#[derive(Clone, Copy, Debug, PartialEq, Eq)]\npub struct " name " {"
    n = parts(fields[name])
    for (i = 1; i <= n; i++) print "    /// " sentence(field_comment[name, names[i]]) "\n    pub " names[i] ": " types[i] ","
    print "}\n"
}

# In one line of 120 columns, or with a line for each parameter.
function rust_fn(name, n, i, head, tail) {
    head = "    pub fn " name "("
    tail = " -> " answer[name] ";"
    if (length(head given[name] ")" tail) <= 120) { print head given[name] ")" tail; return }
    print head
    n = parts(given[name])
    for (i = 1; i <= n; i++) print "        " names[i] ": " types[i] ","
    print "    )" tail
}

function raw(i, plain, first) {
    print "//! The archive's functions and their answers, as `include/estelunya.h` and `crates/estelunya/src/lib.rt` declare them. A slice is a pointer, then its length in items."
    print "//!\n//! Written by `tools/boundary.sh` from the two: change those.\n"
    print "/// The version of the archive's functions and of a table's words that this crate was written for. `estelunya-planner` compares it with\n/// [`estelunya_version`] before its first call; who calls a function of this module compares it himself."
    print "pub const VERSION: u32 = " number_of("VERSION") ";\n"
    for (i = 1; i <= count; i++) if (what[i] == "struct") rust_struct(said[i])
    print "// The contract of all: each pointer is good for its length (reads, and writes where it is `*mut`), and what is lent for writing overlaps no other argument. Nothing is asked of what the bytes, words and\n// numbers say.\nextern \"C\" {"
    for (i = 1; i <= count; i++) {
        if (what[i] == "fn") first = first ? first : i
        # A comment that stands by itself is about those that follow it.
        if (first && what[i] == "comment" && what[i + 1] != "fn") print "\n" marked("    //", said[i])
        if (what[i] != "fn") continue
        plain = said[i]
        sub(/quick_/, "", plain)
        if (i != first) print ""
        if (what[i - 1] == "comment") print marked("    ///", said[i - 1])
        else if (plain in given && plain != said[i]) print "    /// As [`" plain "`], by an index."
        else fail("the header does not say what " said[i] " does")
        rust_fn(said[i])
    }
    print "}"
}

# ---- layout.rs

# What a block of constants is about: its comment up to the first stop.
function label_of(text) {
    sub(/\n.*/, "", text)
    sub(/[.,:] .*|\.$/, "", text)
    return text
}

function constant(name, meaning, type, text) {
    print "/// " sentence(meaning)
    print "pub const " name ": " type " = " text ";"
}

function layout(i, label, meaning) {
    print "//! The table's layout and the limits of the rules, as `include/estelunya.h` says them under the same names: how many words a"
    print "//! record has, where a word stands in it, counted from 0, and the most of what is taken."
    print "//!\n//! Written by `tools/boundary.sh` from the header and the Rattle source: change those."
    for (i = 1; i <= count; i++) {
        if (what[i] == "comment") label = label_of(said[i])
        if (what[i] != "define" && what[i] != "product" || said[i] == "VERSION") continue
        if (what[i - 1] != "define") print ""
        if (what[i] == "product") { constant(said[i], label, "usize", product[said[i]]); continue }
        meaning = define_comment[said[i]]
        if (meaning == "" && said[i] ~ /_WORDS$/) meaning = "its words"
        if (meaning == "") fail("the header does not say what " said[i] " is")
        constant(said[i], label ": " meaning, unsigned[said[i]] ? "u32" : "usize", grouped(number_of(said[i])))
    }
}

END {
    if (failed) exit 1
    for (i = 1; i <= count; i++) {
        if (what[i] == "struct" || what[i] == "fn" || what[i] == "define") seen[what[i], said[i]] = 1
        if (what[i] == "struct" && !(said[i] in fields) || what[i] == "fn" && !(said[i] in given)) fail("the Rattle source does not declare " said[i])
    }
    for (name in fields) if (!(("struct", name) in seen)) fail("the header does not have " name)
    for (name in given) if (!(("fn", name) in seen)) fail("the header does not have " name)
    for (name in value) if (name ~ /_WORDS$|_AT$|^KIND_/ && !(("define", name) in seen)) fail("the header does not have " name)
    if (out == "header") header()
    else if (out == "raw") raw()
    else layout()
}
