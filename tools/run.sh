#!/usr/bin/env bash
# Runs a program that is built, crates/NAME/out/NAME, with this script's standard input and output.
#   bash tools/run.sh NAME
# Programs are built for x86-64 Linux. On another machine it needs in RUN the command that runs one, as an
# emulator and a loader with its options.
set -euo pipefail
. "$(dirname "$0")/common.sh"
help_if_asked "$@"
if [ $# -ne 1 ]; then wrong "it wants the name of one program"; fi
program=$root/crates/$1/out/$1
if [ ! -x "$program" ]; then wrong "there is no crates/$1/out/$1: bash tools/native.sh $1 builds it"; fi
run=()
if [ -n "${RUN:-}" ]; then
    read -ra run <<<"$RUN"
elif [ "$(uname -m)" != x86_64 ]; then
    wrong "$1 is built for x86-64, and this is $(uname -m): RUN has to name the command that runs it"
fi
exec ${run[@]+"${run[@]}"} "$program"
