#!/usr/bin/env bash
# Proves and builds the static library (tools/native.sh), and runs over it the tests and examples of
# bindings/rust, the programs of bindings/c, and an installation of the C library. It runs on x86-64 Linux.
#   bash tools/bindings.sh
# It needs the Rattle toolchain, cargo and a C compiler; no network, and no crate beside bindings/rust. From
# the environment:
#   CC             the C compiler; cc where it is not set
#   YULTARVAS_LIB  a folder with a libyultarvas.a for this machine, which is then not built
set -euo pipefail
. "$(dirname "$0")/common.sh"
help_if_asked "$@"
no_arguments "$@"
export CC=${CC:-cc}
for tool in cargo "$CC"; do
    command -v "$tool" >/dev/null || { echo "bindings.sh: no $tool on the path" >&2; exit 2; }
done
library
export YULTARVAS_LIB
scratch
cd "$root"

echo "---- Rust"
rust=(--offline --release --manifest-path bindings/rust/Cargo.toml)
cargo test "${rust[@]}"
cargo run "${rust[@]}" --example samples
cargo run "${rust[@]}" --example page -- samples/example.page

echo "---- C"
flags=(-std=c11 -O2 -Wall -Wextra -Werror)
for program in example environment stack; do
    "$CC" "${flags[@]}" -frounding-math -Iinclude "bindings/c/$program.c" "$YULTARVAS_LIB/libyultarvas.a" \
        -lm -lpthread -o "$work/$program"
    echo "-- $program"
    "$work/$program"
done

version=$(sed -n 's/^#define YULTARVAS_VERSION "\(.*\)"$/\1/p' include/yultarvas.h)
if ! grep -q "^version = \"$version\"\$" bindings/rust/Cargo.toml; then
    echo "the header and the Rust crate are of different versions" >&2
    exit 1
fi
if ! command -v make >/dev/null; then
    echo "all passed, on $(uname -m); the installation was not tried: there is no make"
    exit
fi
echo "---- C, installed"
make -s -C bindings/c install DESTDIR="$work/root" PREFIX=/usr YULTARVAS_LIB="$YULTARVAS_LIB"
"$CC" "${flags[@]}" -I"$work/root/usr/include" bindings/c/example.c -L"$work/root/usr/lib" -lyultarvas \
    -o "$work/installed"
"$work/installed" >/dev/null
grep -q "^Version: $version\$" "$work/root/usr/lib/pkgconfig/yultarvas.pc"
echo "all passed, on $(uname -m)"
