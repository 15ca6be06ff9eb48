#!/usr/bin/env bash
# Measures how much stack each call of the library takes on this machine, and the smallest thread in which all
# of them run.
#   bash tools/stack.sh
# It builds the library by tools/native.sh, unless YULTARVAS_LIB names a folder with a libyultarvas.a. No
# theorem bounds the stack; the figures stand in include/yultarvas.h and docs. It fails where a call takes
# more than half of what the header tells callers to have.
set -euo pipefail
. "$(dirname "$0")/common.sh"
help_if_asked "$@"
no_arguments "$@"
library
scratch
cd "$root"
"${CC:-cc}" -std=c11 -O2 -Wall -Wextra -Werror -Iinclude bindings/c/stack.c "$YULTARVAS_LIB/libyultarvas.a" \
    -lpthread -o "$work/stack"
echo "on $(uname -m):"
"$work/stack"
