# Explains the refusal of lines of an image, beside places.awk: reads refusals.txt. REFUSAL is LINE,NUMBER as the program prints it, NUMBER the line in decimal; WHERE is the
# name of the lines; TEXT is the text of the line and BEFORE that of the one before, where they could be read again, and MORE what is wrong with the length.
{ learn($0, "lines") }

# Whether one value is above another: neither has leading zeros.
function above(one, other) {
    return length(one) > length(other) || length(one) == length(other) && one "" > other ""
}

# Which field of a line is misspelled, and why.
function misshapen(    i) {
    if (count != 2) { why = "the line has " count " field" (count == 1 ? "" : "s") ", not two"; return }
    for (i = 2; i >= 1; i--) if (misspelled(fields[i]) != "") { at = i; why = misspelled(fields[i]) }
    if (!at) why = "the last line has no newline"
}

# Which field of a line that is spelled as it should be is wrong, and why.
function misplaced(before,    cell) {
    split(before, cell, ",")
    at = 1
    if (fields[1] !~ /[048c]$/) why = "it is not a multiple of 4"
    else if (number > 2 && !above(fields[1], cell[1])) why = "it is not above the address before, " cell[1]
    else { at = 2; why = "the word is 0, and more follows" }
}

END {
    refusal = ENVIRON["REFUSAL"]
    number = ENVIRON["NUMBER"] + 0
    text[number] = ENVIRON["TEXT"]
    at = 0
    kind = refusal
    if (!(kind in means)) sub(/^[^,]*/, "LINE", kind)
    if (number == 0) { printf "%s: refused: %s%s\n", ENVIRON["WHERE"], means[kind], ENVIRON["MORE"]; exit }
    if (ENVIRON["SHOWN"] == "no") { printf "%s:%d: refused: %s\n", ENVIRON["WHERE"], number, means[kind]; exit }
    take_apart(text[number])
    if (number == 1) why = no_names(text[1], "at,word", "is it an image already?")
    else if (kind ~ /,12$/) misshapen()
    else misplaced(ENVIRON["BEFORE"])
    say(ENVIRON["WHERE"], number, at, why, kind)
}
