# What a refusal means, and which field of a line it is about. Functions for report.awk and lines.awk.

# Takes a row of refusals.txt, if it is about lists, or about lines.
function learn(row, where,    cell) {
    split(row, cell, "|")
    if (cell[1] != where) return
    gsub(/[`*]/, "", cell[4])
    gsub(/`/, "", cell[5])
    means[cell[3]] = cell[2] ", " cell[4] ". What to do: " cell[5]
}

# Takes a line apart: its fields, how many there are, and in which column each begins.
function take_apart(line,    i) {
    count = split(line, fields, ",")
    if (count == 0) count = 1
    begins[1] = 1
    for (i = 1; i <= count; i++) begins[i + 1] = begins[i] + length(fields[i]) + 1
}

# A field by its place, with its text.
function named(i,    names) {
    split("first second third fourth fifth", names, " ")
    return "the " names[i] " field, " shown(fields[i])
}

# A text as it is shown: at most 40 letters of it, and none that a terminal would take for something else.
function shown(text) {
    text = substr(text, 1, 40)
    gsub(/\r/, "^M", text)
    gsub(/[^ -~]/, "?", text)
    return text == "" ? "empty" : text
}

# What is wrong with the spelling of a value, or nothing.
function misspelled(v) {
    if (v == "") return "a value is missing"
    if (v ~ /\r$/) return "the line ends with a carriage return: lines end with a newline alone"
    if (v ~ /^0[xX]/) return "a value is written without 0x"
    if (v ~ /[ \t]/) return "a value is written without blanks"
    if (v ~ /^[0-9a-fA-F]+$/ && v != tolower(v)) return "a value is written in lower case"
    if (v !~ /^[0-9a-f]+$/) return "a value is of the digits 0 to 9 and a to f"
    if (length(v) > 8) return "a value has at most 8 digits"
    if (v ~ /^0./) return "a value has no leading zeros"
    return ""
}

# What is unusual in a first line that should be the names.
function no_names(line, names, no_text) {
    if (line == names) return "it has no newline"
    if (line ~ /^\357\273\277/) return "it begins with a byte-order mark"
    if (line ~ /\r$/) return "it ends with a carriage return: lines end with a newline alone"
    if (line ~ /[^ -~]/) return "it is no text: " no_text
    return ""
}

# A place with what stands there and what is wrong with it, in front of what the refusal means.
function say(where, line, i, why, refusal) {
    printf "%s:%d", where, line
    if (i) printf ":%d: %s", begins[i], named(i)
    else printf ": %s", shown(text[line])
    printf "%s: refused: %s\n", (why == "" ? "" : ": " why), means[refusal]
}
