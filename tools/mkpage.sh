#!/usr/bin/env bash
# Makes a trace page: proves and builds the program mkpage, and prints the page of the trace that is named, or
# of the one on standard input.
#   bash tools/mkpage.sh [TRACE]
# A trace is a line num=N and then, for each block, what tools/unpage.sh prints of one: a line block=INDEX and
# a line counts= with 24 whole samples. A text that is no trace gives refused=9; samples or a num that no page
# has give refused= and the number, and for 2 and 4 a line block= with the lowest block that has it. What is
# proved is said on standard error; the first time takes minutes, later ones about a second.
# Exit status: 0; 1 where the trace was refused, or could not be read, or the page not be written, or the
# proof failed; 2 where an argument is wrong.
set -euo pipefail
. "$(dirname "$0")/common.sh"
help_if_asked "$@"
if [ $# -gt 1 ]; then wrong "it wants one trace"; fi
trace=${1-/dev/stdin}
case $trace in -*) wrong "there is no option $trace" ;; esac
if [ $# -eq 1 ]; then
    if [ ! -e "$trace" ]; then wrong "there is no file $trace"; fi
    if [ -d "$trace" ] || [ ! -r "$trace" ]; then wrong "$trace cannot be read as a file"; fi
fi
prove mkpage
answer=$(mktemp)
trap 'rm -f "$answer"' EXIT
status=0
run mkpage <"$trace" >"$answer" || status=1
cat "$answer"
if grep -q '^refused=' "$answer"; then status=1; fi
exit "$status"
