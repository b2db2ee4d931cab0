# What `list` and `pack` share: their arguments, building a program, and refusals in words. A script that reads this has set `name`, what it
# is called in messages, and `home`, the repository's folder.

say() { printf '%s: %s\n' "$name" "$*" >&2; }

# a failure that is no refusal of the trace: usage, files, the build
fail() {
    say "$*"
    exit 2
}

# Whether a file can be read as a trace; the sentence where it cannot.
check_input() { # FILE
    [ "$1" = - ] && return
    [ -e "$1" ] || fail "$1: there is no such file"
    [ -d "$1" ] && fail "$1: this is a directory"
    [ -r "$1" ] || fail "$1: this file cannot be read"
}

# A folder for what is written on the way; it is removed at the end, however that comes.
make_work() {
    work=$(mktemp -d) || fail "no temporary folder can be made"
    trap 'rm -rf "$work"' EXIT
    trap 'exit 2' HUP INT TERM
}

# Where a program stands once it is built.
program_of() { # PROGRAM
    printf '%s\n' "$home/crates/$1/out/$1"
}

# Whether nothing that programs are built of changed since a file was written. What the toolchain makes lies in folders named out.
is_newest() { # FILE
    [ -f "$1" ] && [ -z "$(find "$home/crates.txt" "$home/crates" -name out -prune -o -newer "$1" -print | head -n 1)" ]
}

# Whether the program is built of the sources as they stand: it is newer, or its last build found it so.
is_built() { # PROGRAM
    [ -x "$(program_of "$1")" ] && { is_newest "$(program_of "$1")" || is_newest "$home/target/built/$1"; }
}

# How many crates a program is made of, itself among them.
crates_of() { # PROGRAM
    awk -v program="$1:" '
        { known[substr($1, 1, length($1) - 1)] = 1 }
        $1 == program { line = $0 }
        END {
            count = 1
            n = split(line, words, " ")
            for (i = 2; i <= n; i++) if (words[i] in known) count++
            print count
        }' "$home/crates.txt"
}

# Proves and builds a program, and says on standard error how far that is. What was proved before is not proved again. The toolchain runs what it
# built, on an empty input here.
build() { # PROGRAM
    command -v rt >/dev/null 2>&1 ||
        fail "the Rattle toolchain's command rt is not on the path; it is needed once, to prove and build this program"
    mkdir -p "$home/target/built" || fail "$home/target cannot be written, and the program is built there"
    if command -v flock >/dev/null 2>&1; then
        exec 9>"$home/target/built/lock"
        flock -n 9 || { say "waiting for another build to end"; flock 9; }
        is_built "$1" && { exec 9>&-; return; }
    fi
    total=$(crates_of "$1")
    say "this program is proved and built before its first use: $total crates, which takes some minutes on a fresh machine"
    : >"$work/started"
    { (cd "$home/crates/$1" && rt run </dev/null 2>&1 9>&-); echo "$?" >"$work/status"; } |
        while IFS= read -r line; do
            printf '%s\n' "$line" >>"$work/log"
            # the toolchain says so once for each crate that it proves, as it begins with it
            case $line in
            "rt: chose --jobs "*" for "*)
                count=$((${count:-0} + 1))
                say "$count of $total: ${line##* for }"
                ;;
            esac
        done
    if [ "$(cat "$work/status")" -ne 0 ]; then
        cat "$work/log" >&2
        fail "the program could not be built; what rt said stands above"
    fi
    mv "$work/started" "$home/target/built/$1" || fail "$home/target cannot be written"
    exec 9>&-
}

# A refusal by document 01's number in words, and what that means for what was asked.
explain() { # NUMBER PLACE MEANING
    case $1 in
    1) say "this is no trace: it does not begin with the eight bytes of the magic record" ;;
    2) say "this is longer than 32,768 bytes, the most that this program takes" ;;
    5) say "the record at byte $2 is cut off; $3" ;;
    6) say "the record at byte $2 is malformed: its size is 0 or too small for what it holds, or it is a damaged magic; $3" ;;
    7) say "the record at byte $2 holds a string of over 256 bytes; $3" ;;
    8) say "the record at byte $2 registers a string under an index above 511; $3" ;;
    9) say "the record at byte $2 names a ninth provider; $3" ;;
    10)
        say "repacking would lose something of the record at byte $2: it is of a kind that is skipped, or has an unknown argument, words" \
            "beyond those that its kind has, or a reserved or padding bit that is not zero; $3"
        ;;
    11) say "the record at byte $2 refers to a string or a thread that is not registered; $3" ;;
    12) say "with the record at byte $2 a provider uses over 511 distinct strings or 255 distinct threads; $3" ;;
    *) say "refused by number $1 at byte $2; $3" ;;
    esac
}
