#!/usr/bin/env bash
# Prints a page's counts as a table with one sample on each line, to plot or to load into another program.
#   bash tools/csv.sh [PAGE]
# The page is read from standard input where none is named. The first line names the columns: block, the
# block's index; sample, the sample's index in the page, from 0; count, its count. A block has 24 samples.
# Exit status: as of tools/unpage.sh, which reads the page. For a page that is refused no table is printed.
set -euo pipefail
. "$(dirname "$0")/common.sh"
help_if_asked "$@"
if [ $# -gt 1 ]; then wrong "it wants one page"; fi
case ${1:-} in -*) wrong "there is no option $1" ;; esac
status=0
shown=$(bash "$root/tools/unpage.sh" "$@") || status=$?
if [ "$status" -ne 0 ]; then
    if [ -n "$shown" ]; then echo "$shown" >&2; fi
    exit "$status"
fi
awk -F '[=,]' 'BEGIN { print "block,sample,count" }
    $1 == "block" { block = $2 }
    $1 == "counts" { for (k = 2; k <= NF; k++) print block "," 24 * block + k - 2 "," $k }' <<<"$shown"
