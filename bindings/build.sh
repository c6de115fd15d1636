#!/bin/sh
# Builds the library for C and Rust into bindings/out, and tests it from both languages. It prints each test, and ends in 'N passed, M failed'.
# It needs rt, gcc with g++, clang, valgrind, cargo and Python. `rt lib` first proves the library, which takes half an hour or more, once.
cd "$(dirname "$0")" || exit 1
here=$PWD
work=$(mktemp -d)
trap 'rm -rf "$work"' EXIT
plan=$here/../crates/av1_vectors/stdin
planes=$here/../crates/av1_vectors/stdout
passed=0
failed=0

# try NAME COMMAND..: runs one test, and shows its output if it fails
try() {
    name=$1
    shift
    if "$@" >"$work/log" 2>&1; then
        passed=$((passed + 1))
        echo "ok      $name"
        tail -n 1 "$work/log" | grep '^of \|^each of ' | sed 's/^/        /'
    else
        failed=$((failed + 1))
        echo "FAILED  $name"
        tail -n 20 "$work/log" | sed 's/^/        /'
    fi
}

# reconstructs WRAPPER FOLDER COMPILER..: the example writes the planes of the example plan
reconstructs() {
    wrapper=$1
    folder=$2
    shift 2
    "$@" -Wall -Wextra -Werror -Ic c/reconstruct_plan.c "$folder/libtilgwaren.a" -o "$work/example" &&
        $wrapper "$work/example" "$plan" >"$work/planes" && cmp "$work/planes" "$planes"
}

# runs WRAPPER FILE FOLDER COMPILER..: a test program succeeds
runs() {
    wrapper=$1
    file=$2
    folder=$3
    shift 3
    "$@" -Wall -Wextra -Werror -Ic "c/$file" "$folder/libtilgwaren.a" -o "$work/program" && $wrapper "$work/program" "$plan" "$planes"
}

# asserted COMPILER..: the header declares what the archive contains
asserted() {
    "$@" -pedantic -Wall -Wextra -Werror -fsyntax-only -Ic c/declared.c
}

# refused_elsewhere TARGET: on another target the header stops with its error message
refused_elsewhere() {
    ! clang --target="$1" -fsyntax-only -x c c/tilgwaren.h 2>"$work/said" && grep 'error: "the archive behind this header' "$work/said"
}

# of_another_version: what was compiled with this header doesn't link with an archive of another version, neither from C nor from Rust, and isn't
# loaded with its shared library, even by the same file name; the Python module says so
of_another_version() {
    symbol=$(sed -n 's/^#define tilg_version //p' c/tilgwaren.h)
    other=$work/other
    mkdir -p "$other" && objcopy --redefine-sym "$symbol=tilg_version_0_999" out/libtilgwaren.a "$other/libtilgwaren.a" &&
        ./shared.sh out/libtilgwaren.a "$work" && ./shared.sh "$other/libtilgwaren.a" "$other" &&
        gcc -Ic c/reconstruct_plan.c -L"$work" -ltilgwaren -o "$work/program" || return 1
    ! gcc -Ic c/reconstruct_plan.c "$other/libtilgwaren.a" -o "$work/none" 2>"$work/said" && grep "undefined reference.*$symbol" "$work/said" &&
        ! TILGWAREN_FOLDER=$other crate build --example reconstruct_plan >"$work/said" 2>&1 && grep "$symbol" "$work/said" &&
        LD_LIBRARY_PATH=$work "$work/program" "$plan" | cmp - "$planes" &&
        ! LD_LIBRARY_PATH=$other "$work/program" "$plan" >"$work/said" 2>&1 && grep "undefined symbol: $symbol" "$work/said" &&
        ! (cd python && TILGWAREN_LIBRARY=$other/libtilgwaren.so python3 -c 'import tilgwaren; tilgwaren.library()' 2>"$work/said") && grep 'another version' "$work/said"
}

# shared FOLDER: the archive as a shared library, which exports only the calls
shared() {
    ./shared.sh "$1/libtilgwaren.a" "$work" &&
        gcc -Wall -Wextra -Werror -Ic c/calls.c -L"$work" -ltilgwaren -Wl,-rpath,"$work" -o "$work/program" && "$work/program" "$plan" "$planes" &&
        sed -n 's/^ *\(tilg_[a-z0-9_]*\);$/\1/p' c/tilgwaren.map | sort >"$work/calls" &&
        nm -D --defined-only "$work/libtilgwaren.so" | sed 's/.* //' | sort >"$work/shown" && cmp "$work/calls" "$work/shown"
}

# crate WORD..: cargo for the crate
crate() {
    command=$1
    shift
    cargo "$command" --offline --manifest-path rust/Cargo.toml --target-dir out/target "$@"
}

# without_library: the crate compiles, and has its documentation, where no library is found
without_library() {
    TILGWAREN_FOLDER=$work/none crate check --all-targets && TILGWAREN_FOLDER=$work/none RUSTDOCFLAGS="-D warnings" crate doc --no-deps
}

# example NAME ARGUMENT..: a program of the crate
example() {
    crate run --quiet --example "$@"
}

# examples FOLDER: the programs of the crate run, and those that read a plan, a grid or a sequence write the stored planes. The worked plan has
# 20 bytes of header and 63 of leaves, which are the only part of the grid and of the sequence.
examples() (
    TILGWAREN_FOLDER=$here/$1
    export TILGWAREN_FOLDER
    leaves='\077\0\0\0'
    { printf RTL1 && head -c 20 "$plan" | tail -c 16 && printf "\1\1$leaves" && tail -c 63 "$plan"; } >"$work/grid"
    { printf RSQ1 && head -c 10 "$plan" | tail -c 6 && printf "\1\0\0\0\0\0\0\0\0\0\0\0$leaves" && tail -c 63 "$plan"; } >"$work/sequence"
    example build_plan && example blocks && example blocks intra && example threads &&
        example trace "$plan" "$planes" | grep '^0 differ$' && example reconstruct_plan "$plan" >"$work/whole" && example tiles "$work/grid" >"$work/tiles" &&
        example sequence "$work/sequence" >"$work/shown" && cmp "$work/whole" "$planes" && cmp "$work/tiles" "$planes" && cmp "$work/shown" "$planes"
)

# as_the_program NUMBER: for the plan made from NUMBER, the example and av1_vectors write the same
as_the_program() {
    (cd ../crates/av1_vectors && rt run -- make "$1" >"$work/made" && rt run <"$work/made" >"$work/expected") &&
        gcc -O2 -Ic c/reconstruct_plan.c out/libtilgwaren.a -o "$work/example" &&
        "$work/example" "$work/made" >"$work/planes" && cmp "$work/planes" "$work/expected"
}

programs="calls parts starved transform_block motion_block luma intra codec regions build_plan"
memcheck="valgrind -q --error-exitcode=1 --leak-check=full --show-leak-kinds=all"

try "the library, by LLVM" ./archive.sh out
try "the library, by Rattle's own compiler" ./archive.sh out/rattle --backend rattle
try "header and crate declare what the archive contains" ./declared.py --check
try "the header, as C99" gcc -std=c99 -pedantic -Wall -Wextra -Werror -fsyntax-only c/tilgwaren.h
try "the header, as C++" g++ -x c++ -pedantic -Wall -Wextra -Werror -fsyntax-only c/tilgwaren.h
for other in regions codec; do
    try "the header tilgwaren_$other.h, as C99" gcc -std=c99 -pedantic -Wall -Wextra -Werror -fsyntax-only c/tilgwaren_$other.h
    try "the header tilgwaren_$other.h, as C++" g++ -x c++ -pedantic -Wall -Wextra -Werror -fsyntax-only c/tilgwaren_$other.h
done
try "the header, asserted in C by gcc" asserted gcc -std=c11
try "the header, asserted in C by clang" asserted clang -std=c11
try "the header, asserted in C++" asserted g++ -std=c++11 -x c++
try "the header, for big-endian ARM" refused_elsewhere aarch64_be-linux-gnu
try "the header, for 32 bits" refused_elsewhere i686-linux-gnu
try "the header, for Windows" refused_elsewhere x86_64-windows-gnu
try "an archive of another version is refused" of_another_version
try "the stack bounds in LIBRARY.md" ./stack.py --check out/libtilgwaren.a
try "the crate, without the library" without_library
for folder in out out/rattle; do
    for compiler in "gcc -O2" "gcc -O2 -fPIE -pie" "gcc -O2 -static" "gcc -O2 -flto" "clang -O2" "clang -g -fsanitize=address,undefined" "gcc -g -fsanitize=address,undefined"; do
        try "$folder: $compiler reconstruct_plan.c" reconstructs "" $folder $compiler
        for program in $programs; do
            try "$folder: $compiler $program.c" runs "" $program.c $folder $compiler
        done
    done
    try "$folder: valgrind reconstruct_plan.c" reconstructs "$memcheck" $folder gcc -g -O1
    for program in $programs; do
        try "$folder: valgrind $program.c" runs "$memcheck" $program.c $folder gcc -g -O1
    done
    try "$folder: clang -g -fsanitize=thread regions.c" runs "" regions.c $folder clang -g -fsanitize=thread
    try "$folder: a shared library" shared $folder
    try "$folder: the Python module" env TILGWAREN_LIBRARY="$work/libtilgwaren.so" python3 -m unittest discover -s python/tests
    try "$folder: cargo test" env TILGWAREN_FOLDER="$here/$folder" cargo test --offline --manifest-path rust/Cargo.toml --target-dir out/target
    try "$folder: the examples of the crate" examples $folder
done
if command -v aarch64-linux-gnu-gcc >/dev/null && command -v qemu-aarch64 >/dev/null; then
    emulated="qemu-aarch64 -L /usr/aarch64-linux-gnu"
    try "the library, for ARM64" ./archive.sh out/aarch64 --target aarch64-unknown-linux-gnu
    try "ARM64: the header, asserted in C" asserted aarch64-linux-gnu-gcc -std=c11
    try "ARM64: reconstruct_plan.c" reconstructs "$emulated" out/aarch64 aarch64-linux-gnu-gcc -O2
    for program in $programs; do
        try "ARM64: $program.c" runs "$emulated" $program.c out/aarch64 aarch64-linux-gnu-gcc -O2
    done
else
    echo "left out: ARM64, without aarch64-linux-gnu-gcc and qemu-aarch64 (gcc-aarch64-linux-gnu and qemu-user of Debian)"
fi
for number in 1 2 3 4 5; do
    try "as the program: make $number" as_the_program $number
done
echo "$passed passed, $failed failed"
test $failed = 0
