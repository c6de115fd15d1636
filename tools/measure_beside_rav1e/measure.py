#!/usr/bin/env python3
"""Compares the instructions of this project's transforms and motion with those of rav1e's own plain Rust.

    tools/measure_beside_rav1e/measure.py RAV1E WORK transforms [--depth D] [--sparse] [--time] [SIZE..]
    tools/measure_beside_rav1e/measure.py RAV1E WORK networks [--time] [LENGTH..]
    tools/measure_beside_rav1e/measure.py RAV1E WORK motion [--depth D] [--filter N] [SIDE..]
    tools/measure_beside_rav1e/measure.py RAV1E WORK prepare [--depth D] [--filter N] [SIDE..]
    tools/measure_beside_rav1e/measure.py RAV1E WORK average [--depth D] [SIDE..]
    tools/measure_beside_rav1e/measure.py RAV1E WORK archive [--depth D] [--folder FOLDER] [SIDE..]

RAV1E is the source of rav1e 0.8.1 (the folder that has src/). WORK is a folder for build products: delete it to build again. It needs
`rt`, `rustc`, `valgrind` and the proofs that `rt all check` leaves. Write SIZE as 8x16 and SIDE (a width or height) as 64; the default is
all. Filters: 0 regular, 1 smooth, 2 sharp. Each line has the call, the instructions of one call here and in rav1e, and the ratio of the
two. A call is counted as a quarter of the difference between five calls and one. Both programs are built for x86-64-v2. If their output
differs, the script stops.

`networks` measures the cosine transforms only. A call is two of one column at a range of 16 bits, or two of eight columns: at a range of
18 in lanes of 32 bits, or at a range of 16 in lanes of 16 bits from 8 rows on. In rav1e it is two of each column.

With `--time`, each line has the nanoseconds of one call instead of the instructions: processor time, from the pair with the median ratio
among five pairs of runs. Run it on an idle machine.

`archive` compares each call on a block of the library for C with the call inside that it makes, made here in a loop with the same
arguments (`bare_calls.txt`). It takes the archive from `bindings/out` or from FOLDER, and does not read RAV1E.
"""
import argparse
import concurrent.futures
import os
import pathlib
import re
import shutil
import subprocess
import sys

sys.dont_write_bytecode = True
sys.path.append(str(pathlib.Path(__file__).resolve().parent.parent / "rav1e"))
from rav1e import plain

HERE = pathlib.Path(__file__).resolve().parent
REPOSITORY = HERE.parent.parent
# The static libraries that are built here: the file that they are made of, and the crates that they use.
BESIDE = ("beside_rav1e", "calls.txt", "av1_blocks av1_dct av1_frame av1_itx av1_inter")
BARE = ("bare_calls", "bare_calls.txt", "av1_blocks av1_frame av1_itx av1_inter av1_intra av1_edges")

WIDTHS = [4, 8, 16, 32, 64, 4, 8, 8, 16, 16, 32, 32, 64, 4, 16, 8, 32, 16, 64]
HEIGHTS = [4, 8, 16, 32, 64, 8, 4, 16, 8, 32, 16, 64, 32, 16, 4, 32, 8, 64, 16]
TYPES = ("DCT_DCT ADST_DCT DCT_ADST ADST_ADST FLIPADST_DCT DCT_FLIPADST FLIPADST_FLIPADST ADST_FLIPADST FLIPADST_ADST IDTX V_DCT "
         "H_DCT V_ADST H_ADST V_FLIPADST H_FLIPADST WHT_WHT").split()


# The calls of the library: each kind with its names of what is asked, and their numbers (`archive.rs` says which).
ARCHIVE_CALLS = [
    ("transform", {"DCT_DCT": 0}),
    ("put", {"a copy": 0, "both ways": 4}),
    ("prepare", {"a copy": 0, "both ways": 4}),
    ("average", {"": 0}),
    ("predict", {"DC": 0, "Paeth": 12, "45 degrees": 3, "113 degrees": 5}),
    ("cfl", {"": 0}),
    ("luma", {"": 0}),
    ("edge", {"DC": 0, "45 degrees": 3}),
]


def is_valid(size, kind):
    """Whether AV1 has blocks of this size and type."""
    greatest = max(WIDTHS[size], HEIGHTS[size])
    if TYPES[kind] == "WHT_WHT":
        return size == 0
    return greatest <= 16 or (greatest == 32 and TYPES[kind] in ("DCT_DCT", "IDTX")) or TYPES[kind] == "DCT_DCT"


def build_library(work, name, source, uses):
    """Calls of this project, as a static library: a crate that stands in the repository only while it is built."""
    if (work / f"lib{name}.a").exists():
        return
    crate, listed = REPOSITORY / "crates" / name, REPOSITORY / "crates.txt"
    if crate.exists():
        sys.exit(f"{crate} exists, left by a run that was cut off: delete it and its line in crates.txt")
    before = listed.read_text()
    try:
        for folder in ("src", "specs", "proofs"):
            (crate / folder).mkdir(parents=True)
        (crate / "src" / "lib.rt").write_text((HERE / source).read_text())
        (crate / "specs" / "Lib.antt").touch()
        (crate / "proofs" / "Lib.antt").touch()
        listed.write_text(before + f"{name} staticlib: {uses}\n")
        subprocess.run(["rt", "lib"], cwd=crate, check=True)
        shutil.copy(crate / "out" / f"lib{name}.a", work)
    finally:
        listed.write_text(before)
        shutil.rmtree(crate)


def compile_program(name, work, *folders):
    """A program in Rust over the libraries in some folders."""
    searched = [word for folder in (work, *folders) for word in ("-L", str(folder))]
    subprocess.run(["rustc", "--edition", "2024", "-A", "warnings", "-C", "opt-level=3", "-C", "codegen-units=1", "-C", "target-cpu=x86-64-v2",
                    *searched, "-o", str(work / name), str(work / f"{name}.rs")], check=True)


def build_program(rav1e, work):
    """The program that calls both."""
    (work / "transform").mkdir(exist_ok=True)
    for file in ("mc.rs", "transform/mod.rs", "transform/inverse.rs"):
        (work / file).write_text(plain((rav1e / "src" / file).read_text()))
    for file in (HERE / "beside.rs", HERE / "stubs.rs", HERE.parent / "rav1e" / "numbers.rs"):
        shutil.copy(file, work)
    kit = pathlib.Path(subprocess.run(["rt", "doc"], capture_output=True, text=True, check=True).stdout.strip()).parent
    compile_program("beside", work, kit / "c")


def build_archive_program(folder, work):
    """The program that makes the calls of the library and their own."""
    shutil.copy(HERE / "archive.rs", work)
    compile_program("archive", work, folder)


def count(program, words):
    """How many instructions a run takes, and what it prints."""
    run = subprocess.run(["valgrind", "--tool=callgrind", "--callgrind-out-file=/dev/null", str(program), *map(str, words)],
                         capture_output=True, text=True, check=True)
    return int(re.search(r"refs: *([0-9,]+)", run.stderr).group(1).replace(",", "")), run.stdout


def compare(program, sides, words):
    """The instructions of one call on either of two sides."""
    counts, digests = [], []
    for who in sides:
        once, _ = count(program, [who, *words, 1])
        often, digest = count(program, [who, *words, 5])
        counts.append((often - once) / 4)
        digests.append(digest)
    if digests[0] != digests[1]:
        sys.exit(f"measure.py: {words}: the samples here and in rav1e differ, so there is nothing to measure")
    return counts


def seconds(program, words):
    """The processor time of a run."""
    process = subprocess.Popen([str(program), *map(str, words)], stdout=subprocess.DEVNULL)
    _, status, usage = os.wait4(process.pid, 0)
    if status != 0:
        sys.exit(f"measure.py: {words}: the run ended with status {status}")
    return usage.ru_utime


def time_both(program, sides, words):
    """The nanoseconds of one call on either of two sides."""
    rounds = 1000
    while seconds(program, [sides[1], *words, rounds]) < 0.02:
        rounds *= 2
    pairs = []
    for _ in range(5):
        pairs.append([(seconds(program, [who, *words, rounds]) - seconds(program, [who, *words, 0])) / rounds * 1e9 for who in sides])
    return sorted(pairs, key=lambda pair: pair[0] / pair[1])[2]


def archive_calls(options):
    """The calls of the library, with their names."""
    for side in map(int, options.sizes or (4, 16, 64)):
        for kind, named in ARCHIVE_CALLS:
            # Blocks of chroma that are predicted from luma have sides up to 32.
            side_of_kind = min(side, 32) if kind in ("cfl", "luma") else side
            for name, number in named.items():
                yield f"{kind} {side_of_kind}x{side_of_kind} {name}", [kind, side_of_kind, options.depth, number]


def calls_of(options):
    """The calls to be measured, with their names."""
    if options.what == "archive":
        yield from archive_calls(options)
        return
    if options.what == "transforms":
        for size in range(19):
            name = f"{WIDTHS[size]}x{HEIGHTS[size]}"
            for kind in range(17):
                if is_valid(size, kind) and (not options.sizes or name in options.sizes):
                    yield f"{name} {TYPES[kind]}", ["transform", size, kind, options.depth, int(options.sparse)]
        return
    if options.what == "networks":
        for length in map(int, options.sizes or (4, 8, 16, 32, 64)):
            for bits, name in ((0, "one column"), (32, "lanes of 32 bits"), (16, "lanes of 16 bits")):
                yield f"cosine {length}, {name}", ["cosine", length, bits]
        return
    for side in map(int, options.sizes or (4, 8, 16, 32, 64, 128)):
        if options.what == "average":
            yield f"{side}x{side}", ["average", side, side, options.depth]
            continue
        for across, down in ((0, 0), (0, 4), (4, 0), (4, 4)):
            yield f"{side}x{side} {across} {down}", ["prepare" if options.what == "prepare" else "put", side, side, across, down, options.filter, options.depth]


def main():
    parser = argparse.ArgumentParser(description=__doc__, formatter_class=argparse.RawDescriptionHelpFormatter)
    parser.add_argument("rav1e", type=pathlib.Path)
    parser.add_argument("work", type=pathlib.Path)
    parser.add_argument("what", choices=("transforms", "networks", "motion", "prepare", "average", "archive"))
    parser.add_argument("sizes", nargs="*")
    parser.add_argument("--depth", type=int, choices=(8, 10, 12), default=8)
    parser.add_argument("--sparse", action="store_true", help="ten coefficients in a corner")
    parser.add_argument("--filter", type=int, choices=(0, 1, 2), default=0)
    parser.add_argument("--time", action="store_true", help="nanoseconds in place of instructions")
    parser.add_argument("--folder", type=pathlib.Path, default=REPOSITORY / "bindings" / "out", help="the folder of libtilgwaren.a")
    options = parser.parse_args()
    options.work.mkdir(parents=True, exist_ok=True)
    if options.what == "archive":
        build_library(options.work, *BARE)
        build_archive_program(options.folder, options.work)
        program, sides = options.work / "archive", ("archive", "bare")
    else:
        build_library(options.work, *BESIDE)
        build_program(options.rav1e, options.work)
        program, sides = options.work / "beside", ("ours", "rav1e")
    calls = list(calls_of(options))
    measure, at_once = (time_both, 1) if options.time else (compare, 3)
    with concurrent.futures.ThreadPoolExecutor(at_once) as pool:
        results = list(pool.map(lambda call: measure(program, sides, call[1]), calls))
    for (name, _), (here, there) in zip(calls, results):
        print(f"{name:28} {here:9.0f} {there:9.0f} {here / there:.2f}")
    here, there = (sum(column) for column in zip(*results))
    print(f"over the sum {here / there:.3f}, greatest {max(a / b for a, b in results):.2f}")


if __name__ == "__main__":
    main()
