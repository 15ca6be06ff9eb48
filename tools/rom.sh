#!/usr/bin/env bash
# Measures how much read-only memory the static library takes: its code and its constants, by part.
#   bash tools/rom.sh
# It has the toolchain prove and build the library for x86-64 (`rt lib` in crates/yultarvas), unless YULTARVAS_LIB
# names a folder with a libyultarvas.a for x86-64. It needs readelf, of GNU binutils.
#
# A constant array is made anew in each function that reads it: beside its bytes it takes nearly as many of
# code, in each of them. So a table that comes to be read in a second place is seen here and nowhere else. It
# fails where the library takes more than `most` bytes, or where a second function is as large as a table of
# the rows makes it. A change that has to take more records the new number and says why, in docs/CHECKS.md.
set -euo pipefail
. "$(dirname "$0")/common.sh"
help_if_asked "$@"
no_arguments "$@"

most=81568       # bytes that the library took when they were last recorded
table=14000      # bytes of code of one function that only a table of all rows explains
holds=rows::look # the function that has one

command -v readelf >/dev/null || { echo "rom.sh: no readelf on the path" >&2; exit 2; }
if [ -z "${YULTARVAS_LIB:-}" ]; then
    prove yultarvas lib
    YULTARVAS_LIB=$root/crates/yultarvas/out
fi
archive=$YULTARVAS_LIB/libyultarvas.a
if [ ! -f "$archive" ]; then wrong "there is no $archive"; fi
if ! readelf -hW "$archive" | grep -q 'Machine:.*X86-64'; then wrong "$archive is not for x86-64"; fi

# Name, size and flags of each section that a program takes into memory.
sections() {
    readelf -SW "$archive" | sed -n 's/^ *\[ *[0-9]*\] //p' | awk '$7 ~ /A/ { print $1, $5, $7 }'
}

code=0 constants=0 failed=0
declare -A part=()
large=()
while read -r name size flags; do
    size=$((16#$size))
    if [ "$size" -eq 0 ]; then continue; fi
    case $flags in
    *W*) echo "$name, $size bytes: the library has memory that can be written" && failed=1 ;;
    *X*)
        code=$((code + size))
        function=${name#.text.}
        crate=${function%%::*}
        case $crate in yultarvas_*) crate=yultarvas ;; esac
        part[$crate]=$((${part[$crate]:-0} + size))
        if [ "$size" -gt 2000 ]; then large+=("$size $function"); fi
        if [ "$size" -gt "$table" ] && [ "$function" != "$holds" ]; then
            echo "$function has $size bytes of code: does it hold a copy of the rows?"
            failed=1
        fi
        ;;
    *) constants=$((constants + size)) ;;
    esac
done < <(sections)
all=$((code + constants))

echo "code by crate, in bytes:"
for crate in "${!part[@]}"; do echo "${part[$crate]} $crate"; done | sort -k1,1nr -k2 | awk '{ printf "%8d  %s\n", $1, $2 }'
echo "functions above 2000 bytes:"
for function in "${large[@]}"; do echo "$function"; done | sort -nr | awk '{ printf "%8d  %s\n", $1, $2 }'
echo "code $code, constants $constants, together $all; recorded $most"
if [ "$all" -gt "$most" ]; then
    echo "that is $((all - most)) more than was recorded"
    failed=1
fi
exit "$failed"
