# The two sides of the drift test, from declarations as boundary/declarations.sh writes them, a line each:
#
#   struct NAME { field: type, .. }
#   fn name(parameter: type, ..) -> NAME or type
#
# With side=c a C file over include/estelunya.h, with side=rust a part of layout.rs over planner/sys/src/raw.rs. Both have the places of all fields of each
# answer, and each function as a value of its declared type; the C side hands each call on, and the Rust side makes it both ways, with nothing given.

BEGIN {
    c["u8"] = "uint8_t"
    c["u32"] = "uint32_t"
    c["usize"] = "size_t"
}

# The parts of "a: t, b: u" into names and types; gives how many there are.
function parts(text, count, i, pair) {
    count = split(text, pairs, /, */)
    for (i = 1; i <= count; i++) {
        split(pairs[i], pair, /: */)
        names[i] = pair[1]
        types[i] = pair[2]
    }
    return count
}

function c_type(type, words) {
    split(type, words, " ")
    if (words[1] == "*const") return "const " c[words[2]] " *"
    if (words[1] == "*mut") return c[words[2]] " *"
    return c[type] " "
}

function c_answer(answer) { return answer in c ? c[answer] : "Estelunya" answer }

function nothing(type) {
    if (type ~ /^\*const/) return "std::ptr::null()"
    if (type ~ /^\*mut/) return "std::ptr::null_mut()"
    return "0"
}

function joined(list, text) { return list == "" ? text : list ", " text }

/^struct / {
    count = parts(substr($0, index($0, "{ ") + 2, index($0, " }") - index($0, "{ ") - 2))
    c_places = joined(c_places, "sizeof(Estelunya" $2 ")")
    fields = ""
    for (i = 1; i <= count; i++) {
        c_places = joined(c_places, "offsetof(Estelunya" $2 ", " names[i] ")")
        fields = joined(fields, names[i])
    }
    places += count + 1
    rust_places = joined(rust_places, "layout!(" $2 ", " fields ")")
    answers = joined(answers, $2)
}

/^fn / {
    name = substr($2, 1, index($2, "(") - 1)
    given = substr($0, index($0, "(") + 1, index($0, ")") - index($0, "(") - 1)
    answer = $NF
    count = parts(given)
    c_given = c_types = rust_types = handed = none = ""
    for (i = 1; i <= count; i++) {
        c_given = joined(c_given, c_type(types[i]) names[i])
        c_types = joined(c_types, c_type(types[i]))
        rust_types = joined(rust_types, types[i])
        handed = joined(handed, names[i])
        none = joined(none, nothing(types[i]))
    }
    if (count == 0) c_types = c_given = "void"
    c_calls = c_calls c_answer(answer) " (*const drift_type_" name ")(" c_types ") = " name ";\n" \
        c_answer(answer) " drift_" name "(" c_given ") {\n    return " name "(" handed ");\n}\n"
    rust_handed = rust_handed "    fn drift_" name "(" given ") -> " answer ";\n"
    rust_typed = rust_typed "    let _: unsafe extern \"C\" fn(" rust_types ") -> " answer " = raw::" name ";\n"
    rust_none = rust_none "    assert_eq!(unsafe { drift_" name "(" none ") }, unsafe { raw::" name "(" none ") }, \"" name "\");\n"
}

END {
    if (side == "c") {
        printf "#include \"estelunya.h\"\n#include \"estelunya_texts.h\"\n\n"
        printf "const char *drift_offence_text(uint32_t number) {\n    return estelunya_offence_text(number);\n}\n"
        printf "const char *drift_refusal_text(uint32_t number) {\n    return estelunya_refusal_text(number);\n}\n"
        printf "const size_t drift_places[] = {%s};\nconst size_t drift_most_row_words = ESTELUNYA_MOST_ROW_WORDS;\n%s", c_places, c_calls
        exit
    }
    printf "use estelunya_planner::raw::{%s};\n\n", answers
    printf "extern \"C\" {\n    static drift_places: [usize; %d];\n    static drift_most_row_words: usize;\n    fn drift_offence_text(number: u32) -> *const c_char;\n    fn drift_refusal_text(number: u32) -> *const c_char;\n%s}\n\n", places, rust_handed
    printf "fn rust_places() -> Vec<usize> {\n    [%s].concat()\n}\n\n", rust_places
    printf "fn rust_types() {\n%s}\n\n", rust_typed
    printf "/// SAFETY: null with length 0 is nothing.\nfn nothing_given() {\n%s}\n", rust_none
}
