#!/usr/bin/env bash
# Tries the edits of edits/NAME/, which the gate leaves out to save its time. Each is applied to a copy of crate NAME, as those of
# crates/NAME/must-fail are by the gate, and the prover must refuse it. The repository itself is not touched.
#   bash tools/edits.sh [NAME ..]
# With no name those of every crate are tried.
set -euo pipefail
. "$(dirname "$0")/common.sh"
help_if_asked "$@"
all=("$root"/edits/*)
all=("${all[@]##*/}")
for name in "$@"; do
    case $name in -*) wrong "there is no option $name" ;; esac
    if [ ! -d "$root/edits/$name" ]; then wrong "there is no edits/$name; there are: ${all[*]}"; fi
done
if [ $# -eq 0 ]; then set -- "${all[@]}"; fi
scratch
tar -C "$root" --exclude='crates/*/out' --exclude='crates/*/must-fail' -cf - crates crates.txt | tar -C "$work" -xf -
for name in "$@"; do cp -r "$root/edits/$name" "$work/crates/$name/must-fail"; done
cd "$work" && rt must-fail "$@"
