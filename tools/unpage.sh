#!/usr/bin/env bash
# Shows trace pages: proves and builds the program unpage, and prints the counts of each page that is named,
# or of the one on standard input.
#   bash tools/unpage.sh [PAGE ..]
# Where more than one page is named, a line page=PAGE stands before what each gives. A text that is no page
# gives refused=9. What is proved is said on standard error; the first time takes minutes, later ones about
# a second.
# Exit status: 0; 1 where a page was refused, or could not be read or shown, or the proof failed; 2 where an
# argument is wrong.
set -euo pipefail
. "$(dirname "$0")/common.sh"
help_if_asked "$@"
of_pages unpage "$@"
