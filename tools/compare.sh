#!/usr/bin/env bash
# Puts the same requests to the Rust and to the program ask, and compares the answers byte for byte. The Rust has one refusal of a point, which
# stands as 5; ask says why, by 5, 10, 11 and a section, or 12, and these are read as 5 before they are compared. tests/points.py compares the
# reasons.
#
#   ORACLE=.. bash tools/compare.sh SEED PARTS TURNS
#
# Part k has the requests of `oracle gen SEED+k TURNS`: in each turn a word, a point that has a word, that point with one to three coordinates
# damaged, and a block of samples at a scale, at its own scale, for its lower scale, and scored against a point. From the environment:
#   ORACLE  the program over the Rust that answers request lines and generates them
#   ASK     the program; crates/ask/out/ask, run by tools/run.sh, where it is not set
#   RUN     the command that runs the program, as an emulator and a loader with its options, where it needs one
#   GEN     the command that prints the requests of a seed and a number of turns; "ORACLE gen" where it is not set
#   KINDS   the requests that are kept; decode|point|scale|auto|lower|score where it is not set
#   EVEN    1 for the even profile: the requests are scale|auto, which KINDS may narrow, ask gets each with an e before its name, and ORACLE has to
#           be the Rust with parity 1 left out of its search. That is the same program built from a copy in which the loop over the parities, in
#           encode_at_scale of encoder.rs, is `for p in 0..1u32`; the other loop that has `0..2u32`, over the fallbacks, stays:
#             sed -i '/pub fn encode_at_scale/,/^    }/s/0\.\.2u32/0..1u32/' encoder.rs
#           An odd word among the answers says that ORACLE is another program, and is an error.
# It stops at the first part that is answered differently, and leaves the requests and both answers.
set -euo pipefail
. "$(dirname "$0")/common.sh"
help_if_asked "$@"
whole_numbers 3 three "$@"
names_program ORACLE "${ORACLE:-}"
seed=$1 parts=$2 turns=$3 kinds=${KINDS:-decode|point|scale|auto|lower|score} asked=requests
case ${EVEN:-} in
'') ;;
1)
    kinds=${KINDS:-scale|auto} asked=asked
    if ! [[ $kinds =~ ^(scale|auto)(\|(scale|auto))*$ ]]; then wrong "with EVEN the requests are scale and auto, and KINDS is $kinds"; fi
    ;;
*) wrong "EVEN is 1 or not set" ;;
esac
read -ra gen <<<"${GEN:-$ORACLE gen}"
names_program GEN "${gen[0]}"
if [ -n "${ASK:-}" ]; then
    if [ ! -x "$ASK" ]; then wrong "ASK has to name a program"; fi
    read -ra ask <<<"${RUN:-}"
    ask+=("$ASK")
else
    if [ ! -x "$root/crates/ask/out/ask" ]; then wrong "there is no crates/ask/out/ask: bash tools/native.sh ask builds it, or ASK names another"; fi
    ask=(bash "$root/tools/run.sh" ask)
fi
work=$(mktemp -d)
echo "seeds $seed to $((seed + parts - 1)), $turns turns each, requests $kinds"
for ((k = 0; k < parts; k++)); do
    "${gen[@]}" $((seed + k)) "$turns" >"$work/generated"
    if ! grep -E "^($kinds) " "$work/generated" >"$work/requests"; then
        echo "seed $((seed + k)): among the requests that were generated there is none of $kinds" >&2
        exit 1
    fi
    "$ORACLE" <"$work/requests" >"$work/rust"
    if [ -n "${EVEN:-}" ]; then
        sed 's/^/e/' "$work/requests" >"$work/asked"
        if grep -qE '^word=[0-9a-f]{11}[13579bdf] ' "$work/rust"; then
            echo "seed $((seed + k)): ORACLE searches parity 1, answers in $work" >&2
            exit 1
        fi
    fi
    "${ask[@]}" <"$work/$asked" >"$work/ask"
    sed -E 's/^refused=(10|11 section=[123]|12)$/refused=5/' "$work/ask" >"$work/folded"
    if ! cmp "$work/rust" "$work/folded"; then
        echo "seed $((seed + k)): different answers, in $work"
        exit 1
    fi
    cut -d' ' -f1 "$work/$asked" >>"$work/kinds"
    paste -d' ' <(cut -d' ' -f1 "$work/$asked") <(grep -oE '^(refused=[0-9]+( section=[0-9]+)?|[a-z]+)' "$work/ask") >>"$work/answers"
done
echo "requests, all answered alike:"
sort "$work/kinds" | uniq -c
echo "answers:"
sort "$work/answers" | uniq -c
rm -r "$work"
