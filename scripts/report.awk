# Explains a report, beside places.awk: reads refusals.txt, then the list, then the report. LIST is the list's name. Says of each of the first ten refusals where it
# stands, what it means and what to do, then the counts and, last, the verdict. Ends with the status of that verdict.

# How many fields behind its name each operation uses.
BEGIN {
    split("read 2 write 3 root 1 asid 1 mode 1 all 0 addr 1 ctx 1 addrctx 2 fetch 1 domain 1", pair, " ")
    for (i = 1; i in pair; i += 2) used[pair[i]] = pair[i + 1]
    split("7 3 8 2 9 4 a 2 b 2 c 2 11 2", pair, " ")
    for (i = 1; i in pair; i += 2) about[pair[i]] = pair[i + 1]
}

# Says why a line of the list cannot be read: `at` is the field that is wrong, `why` what is wrong with it.
function unreadable(line, refusal,    i, name) {
    at = 0
    why = ""
    if (refusal == "2") why = no_names(text[1], "op,a,b,c", "are image and list swapped?")
    if (refusal == "3") {
        if (count != 4) why = "the line has " count " field" (count == 1 ? "" : "s") ", not four"
        else why = "the last line has no newline"
        if (count > 4) at = 5
    }
    if (refusal == "4") for (i = 4; i >= 2; i--) if (misspelled(fields[i]) != "") { at = i; why = misspelled(fields[i]) }
    if (refusal == "5") {
        at = 1
        name = tolower(fields[1])
        gsub(/[ \t]/, "", name)
        if (name in used) why = "a name is written in lower case, without blanks"
    }
    if (refusal == "6") for (i = 4; i > used[fields[1]] + 1; i--) if (fields[i] != "0") { at = i; why = fields[1] " does not use it" }
}

FILENAME == ARGV[1] { learn($0, "list"); next }
FILENAME == ARGV[2] { text[FNR] = $0; lines = FNR; next }
FNR == 1 { next }
{
    split($0, cell, ",")
    operation = cell[2]
    answer = cell[3]
    refusal = cell[4]
    line = operation == "-" && cell[1] == "1" ? 1 : FNR
}
operation != "-" { operations++ }
operation ~ /^(read|write|fetch)$/ { accesses++; if (answer == "fault") faulted++ }
answer == "ok" { done++ }
answer == "fault" { done++; faults++ }
answer == "refused" {
    refused++
    if (refused == 1) first = line
    if (refusal == "10") { stale++; if (stale == 1) first_stale = line }
    take_apart(text[line])
    if (operation == "-") { stopped = refusal; stopped_at = line; unreadable(line, refusal) }
    else { at = operation == "addrctx" && refusal == "b" ? 3 : about[refusal] + 0; why = "" }
    if (refused <= 10) say(ENVIRON["LIST"], line, at, why, refusal)
}

function counted(n, what) { return n " " what (n == 1 ? "" : "s") }

# What was not looked at.
function unread(name,    behind) {
    if (stopped == "1") return name " has more than 65,536 bytes, and no line of it was looked at"
    behind = lines > stopped_at ? lines - stopped_at : 0
    return name ":" stopped_at " cannot be read, " counted(behind, "line") " behind it " (behind == 1 ? "was" : "were") " not looked at"
}

# The verdict, and with it `status`. `clean` is said only where each line was carried out and some access went through.
function verdict(name) {
    status = 1
    if (stale) return "not clean: " counted(stale, "line") " stale, the first at " name ":" first_stale (stopped == "" ? "" : "; " unread(name))
    status = 3
    if (stopped != "") return "not judged: " unread(name)
    if (refused) return "not judged: " counted(refused, "line") " refused and not carried out, the first at " name ":" first
    status = 0
    if (!operations) return "nothing to judge: " name " has no operations"
    if (!accesses) return "nothing to judge: " name " reads, writes and fetches nothing (" counted(operations, "operation") ")"
    if (accesses == faulted) return "no access went through: " faulted " of " accesses " faulted, and no TLB makes a difference to that (" counted(operations, "operation") ")"
    return "clean: no TLB makes a difference (" counted(operations, "operation") ")"
}

END {
    if (refused > 10) printf "replay: and %d more\n", refused - 10
    printf "replay: lines carried out: %d, of these faulted: %d; lines refused: %d\n", done, faults, refused
    print verdict(ENVIRON["LIST"])
    exit status
}
