# What the scripts of this folder share. It is read by them (`. common.sh`) and does nothing by itself.
# shellcheck shell=bash

root=$(cd "$(dirname "${BASH_SOURCE[0]}")/.." && pwd)

# Prints the head of the script: the comment that follows its first line.
usage() {
    awk 'NR == 1 { next } !/^#/ { exit } { sub(/^# ?/, ""); print }' "$0"
}

# Says what is wrong with the arguments, then what the script wants, and ends with status 2.
wrong() {
    echo "$(basename "$0"): $1" >&2
    usage >&2
    exit 2
}

# Answers --help, which stands alone.
help_if_asked() {
    if [ "${1:-}" = --help ] || [ "${1:-}" = -h ]; then
        usage
        exit 0
    fi
}

no_arguments() {
    if [ $# -ne 0 ]; then wrong "it takes no argument"; fi
}

# The arguments from the third on are $1 whole numbers, and $2 says $1 in a word.
whole_numbers() {
    local many=$1 word=$2 number
    shift 2
    if [ $# -ne "$many" ]; then wrong "it wants $word numbers"; fi
    for number in "$@"; do
        if ! [[ $number =~ ^(0|[1-9][0-9]{0,17})$ ]]; then wrong "$number is not a whole number"; fi
    done
}

# The variable $1 of the environment names the command $2.
names_program() {
    if ! command -v "$2" >/dev/null; then wrong "$1 has to name a program"; fi
}

# Makes a folder for what the script writes on the way, which goes when the script ends.
scratch() {
    work=$(mktemp -d)
    trap 'rm -rf "$work"' EXIT
}

# Sets YULTARVAS_LIB to a folder with a libyultarvas.a for this machine: the one that it names, or
# target/native, where the library is then built.
library() {
    if [ -n "${YULTARVAS_LIB:-}" ]; then
        YULTARVAS_LIB=$(cd "$YULTARVAS_LIB" && pwd)
    else
        bash "$root/tools/native.sh" yultarvas
        YULTARVAS_LIB=$root/target/native
    fi
}

# Reads what the toolchain says, and prints a line for each crate as it is proved, with the seconds that it took.
proved_crates() {
    local line crate='' from=$SECONDS
    while IFS= read -r line; do
        case $line in
        'crate '*:*)
            crate=${line#crate }
            crate=${crate%%:*}
            ;;
        logic=*)
            case $line in
            logic=proved*) echo "$crate is proved ($((SECONDS - from)) s)" ;;
            *) echo "$crate NOT PROVED ($((SECONDS - from)) s)" ;;
            esac
            from=$SECONDS
            ;;
        esac
    done
}

# Proves and builds the program $1, or with lib behind it the static library $1, with a line on standard error
# for each crate that had to be proved. All that the toolchain says goes to a file. It builds a program and runs
# it in one: that run has no input, and its output goes nowhere. Of two scripts in a pipe one waits for the
# other: the toolchain lets one at a time work in a crate.
prove() {
    local what=program made=$root/crates/$1/out/$1 log=$root/target/$1.log status=0
    if [ "${2:-}" = lib ]; then what='static library' made=$root/crates/$1/out/lib$1.a; fi
    if ! command -v rt >/dev/null; then
        echo "rt is not on the path: this needs the Rattle toolchain" >&2
        exit 2
    fi
    mkdir -p "$root/target"
    if [ ! -e "$made" ]; then
        echo "proving and building $1 and the crates that it needs, which takes minutes (log: $log)" >&2
    fi
    (
        cd "$root/crates/$1"
        if [ "$what" = program ]; then rt run </dev/null 2>&1 >/dev/null; else rt lib </dev/null 2>&1; fi
    ) | tee "$log" | proved_crates >&2 || status=$?
    if [ "$status" -ne 0 ]; then
        grep -E '^(fn|struct|enum) .*: not proved|^rt: the library .* did not build' "$log" >&2 || tail -n 3 "$log" >&2
        echo "the $what $1 was not built; $log has what the toolchain said" >&2
        exit 1
    fi
}

# Runs the program $1 that is built. The status is 1 where it says on standard error that a read or a write
# failed: its own is 0 then too.
run() {
    local said status=0
    said=$(mktemp)
    bash "$root/tools/run.sh" "$1" 2>"$said" || status=$?
    cat "$said" >&2
    if [ -s "$said" ] && [ "$status" -eq 0 ]; then status=1; fi
    rm -f "$said"
    return "$status"
}

# Proves the program $1 and runs it on each page that is named behind it, or on standard input, and ends: with
# status 1 where a page was refused, or could not be read or shown.
of_pages() {
    local program=$1 page several status=0
    shift
    for page in "$@"; do
        case $page in -*) wrong "there is no option $page" ;; esac
        if [ ! -e "$page" ]; then wrong "there is no file $page"; fi
        if [ -d "$page" ] || [ ! -r "$page" ]; then wrong "$page cannot be read as a file"; fi
    done
    prove "$program"
    if [ $# -eq 0 ]; then set -- /dev/stdin; fi
    several=$(($# > 1))
    answer=$(mktemp)
    trap 'rm -f "$answer"' EXIT
    for page in "$@"; do
        run "$program" <"$page" >"$answer" || status=1
        if [ "$several" -eq 1 ]; then echo "page=$page"; fi
        cat "$answer"
        if grep -q '^refused=' "$answer"; then status=1; fi
    done
    exit "$status"
}
