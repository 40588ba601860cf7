# What the commands of the repository share: finding the toolchain, proving, building and running a program, and taking its inputs. A command that reads this file
# first sets `here`, the repository's folder, and `name`, its own name; `find_toolchain` and `command_line` set the rest.

fail() {
    echo "$name: $*" >&2
    exit 2
}

# Finds the toolchain, where there is one: it proves and builds the programs, and its C library runs them. Its folder is RATTLE_HOME, or that above the bin/ of the command rt.
find_toolchain() {
    rt=$(command -v rt) || rt=${RATTLE_HOME:-}/bin/rt
    [ -x "$rt" ] || { rt='' tools=''; return; }
    tools=${RATTLE_HOME:-$(dirname "$(dirname "$(readlink -f "$rt")")")}/toolchain
}

# One sum over the names and contents of all sources.
sum_of_sources() {
    (cd "$here" && find crates/*/src crates/*/specs crates/*/proofs crates.txt -type f -print0 2>/dev/null | LC_ALL=C sort -z | xargs -0 sha256sum | sha256sum | cut -c 1-64)
}

sum_of_program() { # PROGRAM
    sha256sum <"$here/target/bin/$1" | cut -c 1-64
}

# The mark of a program stands beside it: the sum of the sources that it was built of, its own sum, and the toolchain's version.
mark() { # PROGRAM SOURCES VERSION
    echo "$2 $(sum_of_program "$1") $3" >"$here/target/bin/$1.sum"
}

# Whether the mark of a program begins with these sums.
is_marked() { # PROGRAM SUMS
    [ -r "$here/target/bin/$1.sum" ] && [[ $(<"$here/target/bin/$1.sum") = "$2 "* ]]
}

# Whether a program is there, is the one that was marked, and was built of these sources.
is_built() { # PROGRAM SOURCES
    [ -x "$here/target/bin/$1" ] && is_marked "$1" "$2 $(sum_of_program "$1")"
}

# The crates of the repository that a program is made of, itself first, a line each.
crates_of() { # PROGRAM
    awk -v program="$1" '
        /^[^#]/ { sub(/:/, ""); for (i = 2; i <= NF; i++) uses[$1, i] = $i; there[$1] = NF }
        END {
            n = 1; crate[1] = program; seen[program] = 1
            for (k = 1; k <= n; k++)
                for (i = 2; i <= there[crate[k]]; i++) {
                    other = uses[crate[k], i]
                    if (other in there && !seen[other]++) crate[++n] = other
                }
            for (k = 1; k <= n; k++) print crate[k]
        }' "$here/crates.txt"
}

# Copies crates, or all, to a folder that it makes, with their lines of crates.txt and without what the toolchain built of them.
copy_crates() { # FOLDER [CRATE..]
    local folder=$1 name
    shift
    mkdir -p "$folder/crates" || return 1
    if [ $# -eq 0 ]; then
        cp "$here/crates.txt" "$folder/"
        set -- $(cd "$here/crates" && echo */)
    else
        for name in "$@"; do grep "^${name}[ :]" "$here/crates.txt"; done >"$folder/crates.txt"
    fi
    [ ! -e "$here/HANDLES" ] || cp "$here/HANDLES" "$folder/"
    for name in "$@"; do
        mkdir "$folder/crates/$name" && (cd "$here/crates/$name" && find . -mindepth 1 -maxdepth 1 ! -name out -exec cp -R {} "$folder/crates/$name/" \;) || return 1
    done
}

# Prints the crates that the toolchain has begun, by its log, in their order. It says how many processes it chose for each when it begins it.
begun() { # LOG
    sed -n 's/^rt: chose --jobs [0-9]* for //p' "$1" | awk '!seen[$0]++'
}

# Says how many crates were begun, and which is being proved, as long as the file is there that was written before the first.
tell_progress() { # PROGRAM FILE LOG
    local all now told=''
    all=$(crates_of "$1" | wc -l)
    while [ -e "$2" ] && kill -0 $$ 2>/dev/null; do
        now=$(begun "$3" | tail -n 1)
        [ -z "$now" ] || [ "$now" = "$told" ] || echo "$name: proving $(begun "$3" | wc -l) of $all: $now" >&2
        told=$now
        sleep 0.5
    done
}

# Has the toolchain prove, build and run a program, and says how far it is. The program gets nothing, and what it prints is dropped: it is run for its status, which is 0.
prove() { # PROGRAM LOG
    local status teller
    : >"$2.began"
    : >"$2"
    tell_progress "$1" "$2.began" "$2" 8>&- &
    teller=$!
    (cd "$here/crates/$1" && "$rt" run </dev/null) >/dev/null 2>"$2"
    status=$?
    rm -f "$2.began"
    wait "$teller"
    return "$status"
}

# Takes what the toolchain built: a copy, put in its place in one step.
take_built() { # BUILT PLACE
    cp "$1" "$2.new" 2>/dev/null && mv -f "$2.new" "$2"
}

# Waits until no other command builds here. The lock is descriptor 8, which all that a build starts inherits: an interrupted build holds it to the end of its last part.
lock() {
    [ -f "$here/crates.txt" ] || fail "nothing can be built here: there is no crates.txt ($here)"
    { exec 8<>"$here/crates.txt"; } 2>/dev/null || fail "nothing can be built here: the checkout cannot be written ($here)"
    flock -n 8 || {
        echo "$name: another command is building; this one waits for it" >&2
        flock 8
    }
}

unlock() {
    exec 8>&-
}

# Proves and builds a program that is missing or that was built of other sources. Of two commands one builds, and the other waits and looks again.
build() { # PROGRAM LOG
    local log=$2 program=$here/target/bin/$1 sum
    if is_built "$1" "$(sum_of_sources)"; then return; fi
    [ -n "$rt" ] || fail "the program is not built of these sources, and building it needs the Rattle toolchain: put the folder of its command rt on the PATH (docs: README.md)"
    lock
    sum=$(sum_of_sources)
    if is_built "$1" "$sum"; then unlock; return; fi
    mkdir -p "$here/target/bin" 2>/dev/null && [ -w "$here/target/bin" ] || fail "nothing can be built here: the checkout cannot be written ($here/target)"
    echo "$name: proving and building the program, which takes some minutes the first time" >&2
    prove "$1" "$log" || {
        grep '^rt: ' "$log" | grep -v '^rt: chose ' | tail -n 3 >&2
        fail "the program is not proved, so it is not run: 'rt check' in crates/$1 says why"
    }
    [ -x "$here/crates/$1/out/$1" ] || fail "'rt run' in 'crates/$1' built no program"
    take_built "$here/crates/$1/out/$1" "$program" || fail "the checkout cannot be written ($program)"
    mark "$1" "$sum" "$("$rt" version 2>/dev/null)" || fail "the checkout cannot be written ($program.sum)"
    unlock
}

# The commit that is checked out, if this is a checkout.
commit() {
    if [ "$(git -C "$here" rev-parse --show-toplevel 2>/dev/null)" = "$(cd "$here" && pwd -P)" ]; then
        git -C "$here" describe --always --dirty --exclude '*' 2>/dev/null && return
    fi
    echo unknown
}

# The commit, and the toolchain's version at the build.
version() { # PROGRAM
    local with=''
    [ ! -r "$here/target/bin/$1.sum" ] || read -r _ _ with <"$here/target/bin/$1.sum"
    echo "$name $(commit), ${with:+built with }${with:-not built}"
}

# Sets `command` to what runs a program: the toolchain's loader; without a toolchain, the machine's own.
command_line() { # PROGRAM
    local loader=$tools/lib/ld-linux-x86-64.so.2
    if [ -n "$tools" ] && [ -x "$loader" ]; then
        command=("$loader" --library-path "$tools/lib" "$here/target/bin/$1")
    elif [ -x /lib64/ld-linux-x86-64.so.2 ]; then
        command=("$here/target/bin/$1")
    else
        fail "the program is built for x86-64 Linux with glibc, and neither the toolchain's loader nor the machine's is there"
    fi
}

# The name of an input in messages, on one line.
called() { # PATH
    if [ "$1" = - ]; then echo 'standard input'; else printf '%s\n' "${1//[[:cntrl:]]/?}"; fi
}

# Opens a file, a FIFO or standard input as descriptor 3.
open_input() { # WHAT PATH
    if [ "$2" != - ]; then
        [ -e "$2" ] || fail "the $1 $2 is not there"
        [ ! -d "$2" ] || fail "the $1 $2 is a folder"
        [ -r "$2" ] || fail "the $1 $2 cannot be read"
        exec 3<"$2" || fail "the $1 $2 cannot be opened"
    else
        exec 3<&0 || fail "the $1 is to come from standard input, which is closed"
    fi
}

not_read() { # WHAT PATH
    fail "the $1 ($(called "$2")) was not read to its end"
}

# Copies at most so many bytes of an input: one more than the program takes, so that 'too long' is seen.
take() { # WHAT PATH BYTES COPY
    open_input "$1" "$2"
    head -c "$3" <&3 >"$4" || not_read "$1" "$2"
    exec 3<&-
}
