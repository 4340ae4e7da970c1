# Prints each exported function of crates/capi as a declaration of C, on one line: a slice is a pointer and a length, and
# a struct Run is a struct tm_run.
function element_in_c(type) {
    if (type ~ /^[A-Z]/) return "struct tm_" tolower(type) " "
    return (type ~ /^i/ ? "" : "u") "int" substr(type, 2) "_t "
}
function in_c(name, type,    lent, element, size) {
    if (type !~ /^&/) return element_in_c(type) name
    lent = type ~ /mut / ? "" : "const "
    sub(/^&('[a-z]+ )?(mut )?/, "", type)
    element = type
    gsub(/\[|\]|; [0-9]+/, "", element)
    element = lent element_in_c(element)
    size = type
    if (sub(/^.*; /, "[", size)) return element name size
    return element "*" name (type ~ /^\[/ ? ", size_t " name "_len" : "")
}
function declared(signature,    name, count, i, parts, both, line) {
    name = signature
    sub(/[<(].*/, "", name)
    sub(/^[^(]*\( */, "", signature)
    sub(/,? *\) -> u8.*/, "", signature)
    count = split(signature, parts, /, */)
    for (i = 1; i <= count; i++) {
        split(parts[i], both, /: /)
        line = line (i > 1 ? ", " : "") in_c(both[1], both[2])
    }
    return "uint8_t " name "(" line ")"
}
/^pub extern "C" fn / {
    sub(/^pub extern "C" fn /, "")
    signature = ""
    inside = 1
}
inside {
    sub(/^ */, "")
    signature = signature (signature ~ /,$/ ? " " : "") $0
    if (/\) -> u8/) {
        print declared(signature)
        inside = 0
    }
}
