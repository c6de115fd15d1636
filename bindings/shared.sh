#!/bin/sh
# Makes the shared library of ARCHIVE in FOLDER, with the links that programs and linkers look for. It exports only the calls.
#   bindings/shared.sh ARCHIVE FOLDER
# CC is the compiler that links it: gcc if it is not set, and aarch64-linux-gnu-gcc for an archive for ARM64.
set -eu
[ $# -eq 2 ] || { echo "usage: bindings/shared.sh ARCHIVE FOLDER" >&2; exit 2; }
[ -f "$1" ] || { echo "bindings/shared.sh: $1 not found; bindings/build.sh builds the archive" >&2; exit 1; }
c=$(cd "$(dirname "$0")/c" && pwd)
# number PART: that part of the version
number() {
    sed -n "s/^#define TILG_VERSION_$1 //p" "$c/tilgwaren.h"
}
name=libtilgwaren.so.$(number MAJOR).$(number MINOR)
file=$name.$(number PATCH)
"${CC:-gcc}" -shared -s -o "$2/$file" -Wl,--whole-archive "$1" -Wl,--no-whole-archive -Wl,-soname,"$name" -Wl,--version-script="$c/tilgwaren.map" \
    -Wl,-z,defs -Wl,-z,relro -Wl,-z,now -Wl,-z,noexecstack
ln -sf "$file" "$2/$name"
ln -sf "$name" "$2/libtilgwaren.so"
