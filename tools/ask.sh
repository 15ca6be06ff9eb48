#!/usr/bin/env bash
# Asks the coder: proves and builds the program ask, and has it answer one request, or those on standard
# input, one on each line.
#   bash tools/ask.sh decode W           the point of a word, which is 1 to 16 hex digits
#   bash tools/ask.sh point C0 .. C23    the word of a point, whose coordinates are decimal
#   bash tools/ask.sh REQUEST ..         another request: the heads of crates/answers/src/lib.rt and
#                                        crates/even_answers/src/lib.rt list them
#   bash tools/ask.sh <REQUESTS
# A request that is refused gives refused= and the number; a point with a section outside its bound gives
# section= behind it. What is proved is said on standard error; the first time takes minutes, later ones about
# a second.
# Exit status: 0; 1 where the one request was refused, or input or output failed, or the proof did; 2 where an
# argument is wrong.
set -euo pipefail
. "$(dirname "$0")/common.sh"
help_if_asked "$@"
if [ $# -gt 0 ]; then
    case $1 in
    -*) wrong "there is no option $1" ;;
    decode | point | scale | auto | lower | score) ;;
    edecode | epoint | escale | eauto) ;;
    *) wrong "there is no request $1" ;;
    esac
fi
prove ask
if [ $# -eq 0 ]; then
    run ask
    exit
fi
answer=$(run ask <<<"$*")
echo "$answer"
case $answer in refused=*) exit 1 ;; esac
