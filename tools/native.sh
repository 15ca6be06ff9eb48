#!/usr/bin/env bash
# Builds programs of this repository, and the static library, for x86-64 Linux: the toolchain builds for no
# other machine, and this script runs on no other.
#   bash tools/native.sh [CRATE ..]
# With no CRATE these are unpage, mkpage, sizes, ask and yultarvas. A program goes to target/native/CRATE, the
# library to target/native/libyultarvas.a. It needs the Rattle toolchain and no C compiler.
#
# Every crate is proved first, with a line for each that was not proved yet: the compiler builds nothing else. It
# leaves what it builds in crates/CRATE/out. No proof covers its back end.
set -euo pipefail
# Says why nothing is done, and ends.
refuse() {
    echo "native.sh: $1" >&2
    exit 2
}

. "$(dirname "$0")/common.sh"
help_if_asked "$@"
case "${1:-}" in -*) wrong "no option $1" ;; esac
machine=$(uname -m)
if [ "$machine" != x86_64 ]; then refuse "the toolchain is for x86-64, and this is $machine"; fi
command -v rt >/dev/null || refuse "no rt on the path: it is the Rattle toolchain's command"
if [ $# -eq 0 ]; then set -- unpage mkpage sizes ask yultarvas; fi

# What crates.txt says behind the name of a crate: nothing, or that it is a static library.
kind_of() { sed -nE "s/^$1( staticlib)?:.*/crate\1/p" "$root/crates.txt"; }

for crate in "$@"; do
    case $(kind_of "$crate") in
    '') refuse "crates.txt has no crate $crate" ;;
    crate) if [ ! -f "$root/crates/$crate/src/main.rt" ]; then refuse "$crate is neither a program nor a static library"; fi ;;
    esac
done
mkdir -p "$root/target/native"
for crate in "$@"; do
    echo "native.sh: proving and building $crate" >&2
    if [ -f "$root/crates/$crate/src/main.rt" ]; then
        prove "$crate"
        made=$crate
    else
        prove "$crate" lib
        made=lib$crate.a
    fi
    cp "$root/crates/$crate/out/$made" "$root/target/native/$made.new"
    mv "$root/target/native/$made.new" "$root/target/native/$made"
    echo "target/native/$made"
done
