#!/usr/bin/env python3
"""Measures the block calls of libtilgwaren.a beside dav1d's own functions: instructions and cycles of each call.

usage: calls.py [--out FILE] NAME=ARCHIVE..

For example `calls.py v2=V2/libtilgwaren.a v3=V3/libtilgwaren.a`.  One program (calls.c) makes each call by dav1d's C, its assembly up to
SSE4.1 and up to AVX2, and by the library.  If a result differs from plain C, the program ends.  Instructions are those of
callgrind; cycles are ticks of the time stamp counter, a median.  Both are without what an empty call takes.

FILE (tools/measured/calls.tsv) gets a line for each kind of call, depth and size.  The lines at its end are sums over the
calls that real streams make (mix.tsv, which mix.py records), in millions: for each sum all its calls were measured, not only
the sizes of the table.

The first run fetches dav1d 1.5.1 and builds it in integrations/dav1d/out.  It needs apt-get, meson, ninja, nasm, gcc and valgrind.
"""
import argparse
import os
import re
import shutil
import subprocess
import sys
import tempfile

HERE = os.path.dirname(os.path.abspath(__file__))
TOP = os.path.normpath(os.path.join(HERE, "../.."))
sys.dont_write_bytecode = True
sys.path.append(os.path.join(TOP, "integrations/dav1d/on_library"))
import build

OWN = ["C", "SSE4.1", "AVX2"]
NOTHING = ("nothing", 8, 4, 4, 0, 0, 0)
CALLS = 4  # of calls.c: calls that are measured together
SIDES = (4, 8, 16, 32, 64)
BOTH_EDGES, EDGE_FILTER = 3, 4
SHARP = 2
FRACTIONS = {"copy": 0, "rows": 1, "columns": 2, "rows and columns": 3}
INTRA = {"DC": 0, "V": 1, "H": 2, "smooth": 9, "smooth V": 10, "smooth H": 11, "Paeth": 12}
DIRECTIONS = {"direction below 90": (8, 0), "direction between": (4, -1), "direction past 180": (7, 0)}
# type, the greatest side, and the end of block for a side (no coefficient is past 32 rows or columns)
TRANSFORMS = {
    "DCT, 1 coefficient": (0, 64, lambda side: 0),
    "DCT, end 10": (0, 64, lambda side: 9),
    "DCT, all": (0, 64, lambda side: min(side, 32) ** 2 - 1),
    "ADST, end 10": (3, 16, lambda side: 9),
    "ADST, all": (3, 16, lambda side: side * side - 1),
    "identity, end 10": (9, 32, lambda side: 9),
    "Walsh-Hadamard": (16, 4, lambda side: 15),
}
SUMS = {"put": ["put"], "prep": ["prep"], "average": ["avg"], "intra": ["intra"], "chroma from luma": ["cfl_ac", "cfl_pred"],
        "transform": ["itx"], "all": ["put", "prep", "avg", "intra", "cfl_ac", "cfl_pred", "itx"]}


def table_of_kinds():
    """(title, greatest side, what makes the call's name and numbers of a side)"""
    for title, mode in INTRA.items():
        yield title, 64, lambda side, mode=mode: ("intra", mode, 0, BOTH_EDGES)
    for title, turn in DIRECTIONS.items():
        yield title, 64, lambda side, turn=turn: ("intra", *turn, BOTH_EDGES)
        yield title + ", edge filter", 64, lambda side, turn=turn: ("intra", *turn, BOTH_EDGES | EDGE_FILTER)
    yield "chroma from luma: difference", 16, lambda side: ("cfl_ac", 3, 0, 0)
    yield "chroma from luma: prediction", 32, lambda side: ("cfl_pred", 0, 0, BOTH_EDGES)
    for name in ("put", "prep"):
        for title, fraction in FRACTIONS.items():
            for taps, chosen in ((6, 0), (8, SHARP)) if fraction else (("", 0),):
                yield f"{name}, {title}{taps and f', {taps} taps'}", 64, lambda side, name=name, fraction=fraction, chosen=chosen: (
                    name, fraction, chosen if fraction & 1 else 0, chosen if fraction & 2 else 0)
    yield "average", 64, lambda side: ("avg", 0, 0, 0)
    for title, (kind, greatest, end) in TRANSFORMS.items():
        yield title, greatest, lambda side, kind=kind, end=end: ("itx", kind, end(side), 0)


def table_calls():
    """(title, call) of each line of the table."""
    for title, greatest, numbers in table_of_kinds():
        for depth in (8, 10):
            for side in SIDES:
                if side <= greatest:
                    name, *more = numbers(side)
                    yield title, (name, depth, side, side, *more)


def recorded():
    """How often real streams make each call."""
    with open(os.path.join(HERE, "mix.tsv"), encoding="utf-8") as file:
        lines = [line.split("\t") for line in file]
    return {(name, *map(int, numbers)): int(count) for name, *numbers, count in lines}


def own_functions():
    """Builds dav1d's library unless it is there; returns the folder of its source."""
    for name, package in {**build.NEEDS, "valgrind": "valgrind"}.items():
        if not shutil.which(name):
            sys.exit(f"{name} is missing: apt-get install --no-install-recommends {package}")
    source = os.path.join(build.OUT, "own", f"dav1d-{build.VERSION}")
    if not os.path.isfile(os.path.join(source, "build/src/libdav1d.a")):
        os.makedirs(build.OUT, exist_ok=True)
        build.unpack(source, [])
        words = ["-Dbuildtype=release", "-Dtrim_dsp=false", "-Ddefault_library=static", "-Denable_tests=false", "-Denable_tools=false"]
        error = (build.packages.run(["meson", "setup", *words, "build"], "meson", cwd=source) or
                 build.packages.run(["ninja", "-C", "build", "-j", os.environ.get("JOBS", "1"), "src/libdav1d.a"], "ninja", cwd=source))
        if error:
            sys.exit(error)
    build.edits.apply(source, [], build.FILES)
    return source


def compiled(folder, source, archives):
    """The words that run calls.c on the archives."""
    for archive in archives.values():
        if not os.path.isfile(archive):
            sys.exit(f"missing: {archive}")
    paths = [f"-I{path}" for path in (source, f"{source}/include", f"{source}/include/dav1d", f"{source}/build",
                                      f"{source}/build/include", os.path.join(TOP, "bindings/c"))]
    objects = []
    for bits in (8, 16):
        objects.append(os.path.join(folder, f"calls{bits}.o"))
        subprocess.run(["gcc", "-O2", "-Wall", "-D_GNU_SOURCE", f"-DBITDEPTH={bits}", "-DDAV1D_X86_CPU_FLAG_LIBRARY=256", *paths, "-c",
                        os.path.join(HERE, "calls.c"), "-o", objects[-1]], check=True)
    program = os.path.join(folder, "calls")
    # library.c, of which only tables and settings are used here, needs an archive to link with
    subprocess.run(["gcc", *objects, f"{source}/build/src/libdav1d.a", archive, "-lm", "-lpthread", "-ldl", "-Wl,-z,now", "-o", program],
                   check=True)
    words = [program]
    for name, archive in archives.items():
        words.append(os.path.join(folder, name, "libtilgwaren.so"))
        os.mkdir(os.path.dirname(words[-1]))
        subprocess.run([os.path.join(TOP, "bindings/shared.sh"), archive, os.path.dirname(words[-1])], check=True)
    return words


def run(words, calls):
    """What a run of the program prints for these calls."""
    text = "".join(" ".join(map(str, call)) + "\n" for call in calls)
    done = subprocess.run(words, input=text, stdout=subprocess.PIPE, text=True, check=False)
    if done.returncode:
        sys.exit(f"{words[0]}: status {done.returncode}")
    return done.stdout


def cycles(words, calls):
    """For each call the ticks of one by each implementation."""
    return net(calls, [[int(word) for word in line.split()] for line in run(words, calls).splitlines()])


def instructions(words, calls):
    """For each call the instructions of one by each implementation."""
    with tempfile.TemporaryDirectory() as folder:
        out = os.path.join(folder, "out")
        run(["valgrind", "-q", "--tool=callgrind", "--collect-atstart=no", "--combine-dumps=yes", f"--callgrind-out-file={out}", *words], calls)
        with open(out, encoding="utf-8", errors="replace") as file:
            parts = file.read().split("\ndesc: Trigger: Client Request: ")[1:]
    counts = [[0] * (len(OWN) + len(words) - 1) for _ in calls]
    for part in parts:
        line, by = map(int, part.split("\n", 1)[0].split())
        counts[line][by] = int(re.search(r"^(?:summary|totals): (\d+)", part, re.M)[1])
    return net(calls, counts)


def net(calls, measured):
    """By call, one of the calls that were measured together, without what empty calls take."""
    by_call = dict(zip(calls, measured))
    return {call: [(whole - empty) / CALLS for whole, empty in zip(taken, by_call[NOTHING])] for call, taken in by_call.items()}


def sums(mix, measured):
    """(title, depths, calls, figures in millions)"""
    for title, names in SUMS.items():
        for depths in ((8,), (10,), (8, 10)):
            chosen = {call: count for call, count in mix.items() if call[0] in names and call[1] in depths}
            columns = zip(*([count * figure for figure in measured[call]] for call, count in chosen.items()))
            yield title, " and ".join(map(str, depths)), sum(chosen.values()), [sum(column) / 1e6 for column in columns]


def written(path, names, counts, ticks, mix):
    """Writes the table."""
    columns = [*OWN, *names]
    with open(path, "w", encoding="utf-8") as file:
        heads = [f"{column}, {what}" for what in ("instructions", "cycles") for column in columns]
        print("call", "depth", "size", *heads, sep="\t", file=file)
        for title, call in table_calls():
            figures = [f"{figure:.0f}" for figure in (*counts[call], *ticks[call])]
            print(title, call[1], f"{call[2]}x{call[3]}", *figures, sep="\t", file=file)
        for (title, depths, calls, millions), (*_, of_cycles) in zip(sums(mix, counts), sums(mix, ticks)):
            figures = [f"{figure:.2f}" for figure in (*millions, *of_cycles)]
            print(f"sum, millions: {title}", depths, f"{calls} calls", *figures, sep="\t", file=file)


def told(names, figures):
    """The ratios of the library to dav1d's assembly, as text."""
    own, here = figures[:len(OWN)], figures[len(OWN):]
    return "; ".join(f"{name} / {other} {mine / its:.2f}" for name, mine in zip(names, here) for other, its in zip(OWN[1:], own[1:]))


def main():
    parser = argparse.ArgumentParser(description=__doc__, formatter_class=argparse.RawDescriptionHelpFormatter)
    parser.add_argument("--out", default=os.path.join(TOP, "tools/measured/calls.tsv"), metavar="FILE")
    parser.add_argument("archives", nargs="+", metavar="NAME=ARCHIVE")
    options = parser.parse_args()
    archives = dict(word.split("=", 1) for word in options.archives)
    source, mix = own_functions(), recorded()
    calls = list(dict.fromkeys([NOTHING, *(call for _, call in table_calls()), *mix]))
    with tempfile.TemporaryDirectory() as folder:
        words = compiled(folder, source, archives)
        ticks, counts = cycles(words, calls), instructions(words, calls)
    written(options.out, archives, counts, ticks, mix)
    for what, measured in (("instructions", counts), ("cycles", ticks)):
        for title, depths, number, millions in sums(mix, measured):
            print(f"{what}, {title} at {depths} bits, {number:,} calls: {told(archives, millions)}")


if __name__ == "__main__":
    main()
