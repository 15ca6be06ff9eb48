#!/usr/bin/env bash
# Puts targets near the decision boundary to a program, which has to answer each with the nearest lattice point.
#
#   PROGRAM=.. bash tools/nearest/compare.sh SEED COUNT
#
# The targets and their nearest points are those of tools/nearest/main.rs. From the environment:
#   PROGRAM  the command that runs the program that answers request lines, with an emulator or a loader where it needs one
#   NEAREST  tools/nearest/main.rs, built; target/nearest_points where it is not set
#   EVEN     1 for the even profile: the nearest lattice point with even coordinates is asked for, by escale
# Where an answer is another point it leaves the requests, the points and the answers.
set -euo pipefail
. "$(dirname "$0")/../common.sh"
help_if_asked "$@"
whole_numbers 2 two "$@"
read -ra program <<<"${PROGRAM:-}"
names_program PROGRAM "${program[0]:-}"
nearest=${NEAREST:-$root/target/nearest_points}
if [ ! -x "$nearest" ]; then
    wrong "there is no $nearest: rustc -O tools/nearest/main.rs -o target/nearest_points builds it"
fi
case ${EVEN:-} in
'') option=() ;;
1) option=(even) ;;
*) wrong "EVEN is 1 or not set" ;;
esac
work=$(mktemp -d)
"$nearest" "$1" "$2" "$work/requests" "$work/points" "${option[@]}"
"${program[@]}" <"$work/requests" >"$work/answers"
sed 's/^word=[0-9a-f]* score=[0-9a-f]* point=//' "$work/answers" >"$work/answered"
if ! cmp "$work/points" "$work/answered"; then
    echo "$(paste "$work/points" "$work/answered" | awk '$1 != $2' | wc -l) other answers, in $work"
    exit 1
fi
echo "$(wc -l <"$work/answered") answers, all of them the nearest point"
rm -r "$work"
