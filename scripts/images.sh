# What the commands that read images share, beside `scripts/program.sh`: how an input begins, the image of lines, and what is wrong with either.

# Whether a file begins with these letters.
begins() { # FILE LETTERS
    [ "$(head -c "${#2}" "$1" | tr -d '\0')" = "$2" ]
}

# What is wrong with the length of a refused image.
wrong_length() { # IMAGE
    local size
    size=$(wc -c <"$1")
    if [ "$size" -eq 0 ]; then
        echo "it is empty"
    elif [ "$size" -gt 32768 ]; then
        echo "it has more than 32,768 bytes"
    else
        echo "its length, $size bytes, is not a multiple of 4,096"
    fi
}

# Says of a refused image what is wrong with it, what that means and what to do, from a row of scripts/refusals.txt, which is named by its first cells.
explain_image() { # IMAGE WRONG ROW
    WHERE=$(called "$1") WRONG=$2 awk -F'|' -v row="$3" '
        index($0, row "|") == 1 { gsub(/[`*]/, ""); print ENVIRON["WHERE"] ": " ENVIRON["WRONG"] ": refused: " $2 ", " $4 ". What to do: " $5 }' "$here/scripts/refusals.txt" >&2
}

# Makes the image of the lines on standard input. Afterwards the file has what the program wrote, whole: the image, or with status 1 the refusal, LINE,NUMBER. An
# image that was cut short can have the length of another, so the program must not have said anything.
make_image() { # FILE
    local said status size refusal=''
    command_line to_image
    said=$("${command[@]}" 2>&1 >"$1")
    status=$?
    [ -z "$said" ] || echo "$said" >&2
    [ "$status" -eq 0 ] || fail "the program ended with status $status"
    size=$(wc -c <"$1")
    if [ -z "$said" ]; then
        [ "$size" -lt 4096 ] || [ "$size" -gt 32768 ] || [ $((size % 4096)) -ne 0 ] || return 0
        IFS= read -r refusal <"$1"
        [ "$size" -ne $((${#refusal} + 1)) ] || [[ ! $refusal =~ ^(0,13|[1-9a-f][0-9a-f]{0,7},1[23])$ ]] || return 1
    fi
    fail "the image was cut short: there is no result"
}

# The text of a line of a file, as far as it is shown. The file is read no further, and no line is held: both can be of any length.
line_of() { # FILE LINE
    { tail -n "+$2" | head -n 1 | head -c 80 | tr '\000' '\001'; } <"$1" 2>/dev/null
}

# What is wrong with the length of the image of lines of which each is as it should be.
wrong_end() { # FILE
    local last
    last=$(tail -n 1 <"$1")
    if [[ $last =~ ^([0-9a-f]{1,8}), ]]; then
        echo "; the last line is $last, so the image would have $((16#${BASH_REMATCH[1]} + 4)) bytes"
    else
        echo "; no line follows the names"
    fi
}

# Says of refused lines which line and which field it is, what that means and what to do. Only a file can be read again: of another input no text is shown.
explain_refusal() { # PATH LINE,NUMBER
    local line=$((16#${2%,*})) text='' before='' more='' shown=no
    if [ "$1" != - ] && [ -f "$1" ]; then
        shown=yes
        if [ "$line" -eq 0 ]; then more=$(wrong_end "$1"); else text=$(line_of "$1" "$line"); fi
        [ "$line" -le 2 ] || before=$(line_of "$1" $((line - 1)))
    fi
    WHERE=$(called "$1") REFUSAL=$2 NUMBER=$line TEXT=$text BEFORE=$before SHOWN=$shown MORE=$more \
        awk -f "$here/scripts/places.awk" -f "$here/scripts/lines.awk" "$here/scripts/refusals.txt" >&2
}
