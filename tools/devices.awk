# Reads a devices file, and prints what stands where: rows of KIND, LINE, COLUMN, ELEMENT and TEXT with tabs between
# them. Lines and columns are counted from 1, columns in bytes, elements from 0. It reads on to the first fault.
#
#     fault           the first byte at which the file is no JSON
#     shape           a value that isn't of the shape that its place needs
#     element         an element
#     name            the value of its key "name", if that is a text; TEXT is as it stands in the file
#     key             a key of an element
#     answer, idle    a text of its "answers", of its "idle"
{ s = s $0 "\n" }

END {
    size = length(s)
    p = line = begins = 1
    element = 0
    split("file list element object name text answers list idle list answer text said text", pairs, " ")
    for (i = 1; i in pairs; i += 2) wanted[pairs[i]] = pairs[i + 1]
    value("file", 0)
    blanks()
    if (p <= size) fault()
}

function here() { return line "\t" (p - begins + 1) }

function tell(kind, place, text) {
    if (!faulty) print kind "\t" place "\t" element "\t" text
}

function fault() {
    tell("fault", here(), "")
    faulty = 1
    p = size + 1
}

function next_byte() { return substr(s, p, 1) }

function blanks(    byte) {
    for (; p <= size; p++) {
        byte = next_byte()
        if (byte == "\n") { line++; begins = p + 1 }
        else if (byte != " " && byte != "\t" && byte != "\r") return
    }
}

# A text, behind its first quotation mark.
function text(    from, byte) {
    for (from = ++p; p <= size; p++) {
        byte = next_byte()
        if (byte == "\"") { p++; return substr(s, from, p - 1 - from) }
        if (byte ~ /[\001-\037]/) break
        if (byte == "\\") {
            p++
            if (substr(s, p, 5) ~ /^u[0-9A-Fa-f][0-9A-Fa-f][0-9A-Fa-f][0-9A-Fa-f]/) p += 4
            else if (next_byte() !~ /["\\\/bfnrt]/) break
        }
    }
    fault()
}

# A value in the place of what `role` names; other places have none.
function value(role, depth,    place, byte, found) {
    blanks()
    place = here()
    byte = next_byte()
    if (role == "element") tell("element", place, "")
    found = byte == "\"" ? "text" : byte == "[" ? "list" : byte == "{" ? "object" : "other"
    if (role in wanted && found != wanted[role]) { tell("shape", place, ""); role = "" }
    if (depth > 120) fault()
    else if (found == "text") tell_text(role, place, text())
    else if (found == "list") list(role, depth)
    else if (found == "object") object(role, depth, place)
    else if (match(substr(s, p, 400), /^(true|false|null|-?(0|[1-9][0-9]*)([.][0-9]+)?([eE][-+]?[0-9]+)?)/)) p += RLENGTH
    else fault()
}

function tell_text(role, place, found) {
    if (role == "name" || role == "answer") tell(role, place, found)
    if (role == "said") tell("idle", place, found)
}

# Whether a list or an object goes on behind one of its parts.
function goes_on(closing,    byte) {
    blanks()
    byte = next_byte()
    if (byte != "," && byte != closing) { fault(); return 0 }
    p++
    return byte == ","
}

function opens_empty(closing) {
    p++
    blanks()
    if (next_byte() != closing) return 0
    p++
    return 1
}

function list(role, depth,    inner) {
    inner = role == "file" ? "element" : role == "answers" ? "answer" : role == "idle" ? "said" : ""
    if (opens_empty("]")) return
    do {
        value(inner, depth + 1)
        if (role == "file") element++
    } while (goes_on("]"))
}

function object(role, depth, place,    key, at, named) {
    if (!opens_empty("}")) {
        do {
            blanks()
            at = here()
            if (next_byte() != "\"") { fault(); return }
            key = text()
            if (role == "element") tell("key", at, key)
            named = named || key == "name"
            blanks()
            if (next_byte() != ":") { fault(); return }
            p++
            value(role == "element" && key ~ /^(name|answers|idle)$/ ? key : "", depth + 1)
        } while (goes_on("}"))
    }
    if (role == "element" && !named) tell("shape", place, "")
}
