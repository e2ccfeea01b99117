# shellcheck shell=sh disable=SC2034,SC2154
# What the scripts of the project share: a program of these very sources, built once, and run.
# A script sets self (its name) and top (the project's folder), then reads this file: . "$top/tools/programs.sh"
# (which is why a name here may look unused, or never set).
# Statuses that are no verdict. The verdicts have 0 to 4.
UNREADABLE=5
USAGE=6
UNBUILT=7
UNWRITTEN=8
MISTAKEN=9

say() { printf '%s: %s\n' "$self" "$*" >&2; }

die() { # STATUS WORDS
    ended=$1
    shift
    say "$@"
    exit "$ended"
}

# The toolchain and its identity. Its programs are for Linux on x86-64, and run as they are.
find_kit() {
    rt=$(command -v rt) || die "$UNBUILT" 'there is no rt on the path: the Rattle toolchain is needed, to build and to run. Nothing was judged'
    kit=$(dirname "$(dirname "$(readlink -f "$rt")")")
    read -r kit_id <"$kit/KIT-ID" || die "$UNBUILT" "the toolchain at $kit has no KIT-ID. Nothing was judged"
}

# One number for the toolchain and for every source, by their contents. What rt keeps in crates/NAME/out is no source.
stamp_of() {
    (
        cd "$top" || exit 1
        {
            printf '%s\n' "$kit_id"
            find -L crates.txt crates -path 'crates/*/out' ! -path 'crates/*/*/out' -prune -o \( -name '*.rt' -o -name '*.antt' -o -name crates.txt \) -print0 | LC_ALL=C sort -z | xargs -0 sha256sum
        } | sha256sum | cut -c1-64
    )
}

# How many crates a program stands on, itself among them.
count_crates() { # NAME
    awk -v want="$1" '
        function visit(n,   a, k, m) {
            if (seen[n] || !(n in deps)) return
            seen[n] = 1; count++
            m = split(deps[n], a, " ")
            for (k = 1; k <= m; k++) visit(a[k])
        }
        { sub(/#.*/, ""); i = index($0, ":"); if (i) { n = substr($0, 1, i - 1); deps[n] = substr($0, i + 1) } }
        END { visit(want); print count + 0 }' "$top/crates.txt"
}

# What rt says, as progress on a terminal; its status is the last line.
progress() { # NAME CRATES
    done_crates=0
    while IFS= read -r line; do
        case $line in
        'crate '*': modules '*)
            done_crates=$((done_crates + 1))
            if [ -t 2 ]; then
                crate=${line#crate }
                printf '\r%s: proving %s, crate %s of %s: %-12s' "$self" "$1" "$done_crates" "$2" "${crate%%:*}" >&2
            fi
            ;;
        esac
        printf '%s\n' "$line"
    done
    if [ -t 2 ]; then printf '\n' >&2; fi
}

# Proves and builds a program, one build at a time in this folder, and keeps it under its stamp. What .ci/run kept of the same stamp is proved and built.
build() { # NAME
    command -v flock >/dev/null || die "$UNBUILT" 'there is no flock, which keeps two builds apart. Nothing was judged'
    exec 9<"$top"
    if ! flock -n 9; then
        if [ -t 2 ]; then say 'another build runs in this folder; waiting for it'; fi
        flock 9 || die "$UNBUILT" 'the lock could not be had. Nothing was judged'
    fi
    program=$top/target/run/$stamp/$1
    if [ -x "$program" ]; then
        exec 9<&-
        return
    fi
    if ! mkdir -p "$top/target/run/$stamp" 2>/dev/null || ! [ -w "$top/target/run/$stamp" ]; then
        die "$UNBUILT" "the program is not built from these sources, and this user may not write $top/target: let its owner run ./$self --build. Nothing was judged"
    fi
    made=$top/target/proved/$stamp/$1
    if ! [ -x "$made" ]; then
        if [ -t 2 ]; then say "the program $1 is not built from these sources yet. It is proved first, which takes some minutes the first time"; fi
        # rt run proves it, builds it and then runs it, on nothing here: with no words and no input each program ends at once and writes no file
        said=$({ cd "$top/crates/$1" && rt run </dev/null 9<&- 2>&1; printf 'status %s\n' "$?"; } | progress "$1" "$(count_crates "$1")")
        case $said in
        *'rt: running out/'*'status 0') ;;
        *)
            printf '%s\n' "$said" | tail -n 6 >&2
            die "$UNBUILT" 'the program was not proved, so it was not built. Nothing was judged'
            ;;
        esac
        [ "$(stamp_of)" = "$stamp" ] || die "$UNBUILT" 'the sources changed while they were proved: run it again. Nothing was judged'
        made=$top/crates/$1/out/$1
    fi
    if ! cp "$made" "$program.$$" || ! mv "$program.$$" "$program"; then
        die "$UNBUILT" "the program could not be kept under $top/target. Nothing was judged"
    fi
    exec 9<&-
}

# The program of these sources, built if it is not there.
have() { # NAME
    find_kit
    stamp=$(stamp_of)
    [ ${#stamp} -eq 64 ] || die "$UNBUILT" 'the sources could not be read. Nothing was judged'
    program=$top/target/run/$stamp/$1
    [ -x "$program" ] || build "$1"
}

# After rt ci has passed: keeps the programs that it built, whole or not at all, under the stamp of the sources that it proved.
keep_proved() { # STAMP
    find_kit
    [ "$(stamp_of)" = "$1" ] || die "$UNBUILT" 'the sources changed while they were proved'
    rm -rf "$top/target/proved"
    mkdir -p "$top/target/proved/new" || exit
    for source in "$top"/crates/*/src/main.rt; do
        crate=$(basename "${source%/src/main.rt}")
        cp "$top/crates/$crate/out/$crate" "$top/target/proved/new/" || exit
    done
    mv "$top/target/proved/new" "$top/target/proved/$1"
}

# Runs it. A pipe that does not block is opened anew, so that a read waits.
run() { # ARGUMENTS
    if [ -p /dev/stdin ] && (: </dev/stdin) 2>/dev/null; then
        "$program" "$@" </dev/stdin
    else
        "$program" "$@"
    fi
}

# Says nothing and stops where a line could not go out anyway.
need_output() {
    { true >&1; } 2>/dev/null || die "$UNWRITTEN" 'standard output is closed'
}

# Prints a text whole, or ends with a status of its own.
put() { # TEXT
    { printf '%s\n' "$1"; } 2>/dev/null || die "$UNWRITTEN" 'the line could not be written'
}

# A folder of this run's own, gone when it ends.
make_room() {
    room=$(mktemp -d) || die "$UNWRITTEN" 'there is no place for temporary files'
    trap 'rm -rf "$room"' EXIT
    trap 'exit 129' HUP INT TERM
}

# What the program text said on standard error: nothing, or the reason why there is no answer.
said_of() { # FILE NAMES
    [ -s "$room/said" ] || return 0
    read -r first <"$room/said"
    case $first in
    'input too long') die 4 "$first" ;;
    'not written') die "$UNWRITTEN" 'the output could not be written' ;;
    'names '[0-9]*) printf '%s:%s\n' "$2" "${first#names }" >&2; exit "$MISTAKEN" ;;
    [0-9]*:[0-9]*': expected '*) printf '%s:%s\n' "$1" "$first" >&2; exit "$MISTAKEN" ;;
    esac
    die "$UNREADABLE" "$first"
}

print_version() {
    find_kit
    put "$self $(cat "$top/VERSION")
toolchain $kit_id
rules edition 1
sources $(stamp_of)"
}
