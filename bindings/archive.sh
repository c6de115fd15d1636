#!/bin/sh
# Builds libtilgwaren.a into FOLDER: the library as `rt lib` proves and builds it, together with its heap (c/heap.c).
#   bindings/archive.sh FOLDER [FLAGS OF RT LIB]
# For ARM64 the flag is --target aarch64-unknown-linux-gnu.
set -eu
[ $# -gt 0 ] || { echo "usage: bindings/archive.sh FOLDER [FLAGS OF RT LIB]" >&2; exit 2; }
command -v rt >/dev/null || { echo "bindings/archive.sh: rt not found; install the Rattle toolchain (README) or use a release" >&2; exit 1; }
mkdir -p "$1"
folder=$(cd "$1" && pwd)
shift
target=x86_64-unknown-linux-gnu
before=
for word; do
    [ "$before" != --target ] || target=$word
    before=$word
done
here=$(cd "$(dirname "$0")" && pwd)
tools=$(dirname "$(rt doc)")/toolchain/bin
work=$(mktemp -d)
trap 'rm -rf "$work"' EXIT
cd "$here/../crates/av1_c"
rt lib "$@"
cp out/libav1_c.a "$folder/libtilgwaren.a"
"$tools/clang" --target="$target" -std=c99 -O2 -fPIC -Wall -Wextra -Werror -c "$here/c/heap.c" -o "$work/heap.o"
"$tools/llvm-ar" rsD "$folder/libtilgwaren.a" "$work/heap.o"
