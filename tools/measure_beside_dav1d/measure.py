#!/usr/bin/env python3
"""Counts the instructions that recorded clips take here and in dav1d.

usage: measure.py [--tools PATH] [--tools-v3 PATH] [--time ROUNDS] FOLDER..

FOLDER comes from `integrations/rav1e/record`. Its sequence goes through `av1_tools sequence`, its bitstream through dav1d in one
thread: as plain C, with assembly up to SSE4.1 (this project is also built for that), and with AVX2. --tools is the built
av1_tools (default: $AV1_TOOLS, else crates/av1_tools/out/av1_tools). --tools-v3 is a second one, built by
`rt run --cpu x86-64-v3`; then it is compared with AVX2. callgrind counts the instructions of whole runs. With --time each line
also has milliseconds: the median of ROUNDS rounds, in which the programs run in turn.

The work is not the same: dav1d reads entropy coded bits, and this project reads coefficients in plain bytes. It needs dav1d
and valgrind: apt-get install dav1d valgrind.
"""
import argparse
import os
import re
import shutil
import statistics
import subprocess
import sys
import tempfile
import time

HERE = os.path.dirname(os.path.abspath(__file__))
BUILT = os.path.normpath(os.path.join(HERE, "../../crates/av1_tools/out/av1_tools"))
# dav1d's assembler, and the word that asks for no more of it.
MASKS = {"plain C": "0", "SSE4.1": "sse41", "AVX2": "avx2"}


def commands(built, folder):
    """The programs by name, each as its words and the file on its standard input: this project's builds, and dav1d."""
    bits, sequence = os.path.join(folder, "clip.ivf"), os.path.join(folder, "sequence")
    dav1d = ["dav1d", "-q", "-i", bits, "--threads", "1", "--muxer", "null", "-o", "-", "--cpumask"]
    here = {name: ([os.path.abspath(path), "sequence"], sequence) for name, path in built.items()}
    return here | {name: ([*dav1d, mask], os.devnull) for name, mask in MASKS.items()}


def pairs(built):
    """Which build is compared with which assembler: the last one, for the newest processor, with AVX2, else the first."""
    first, last = list(built)[0], list(built)[-1]
    return [(last if there == "AVX2" else first, there) for there in MASKS]


def run(words, file):
    with open(file, "rb") as given:
        subprocess.run(words, stdin=given, stdout=subprocess.DEVNULL, stderr=subprocess.DEVNULL, check=True)


def instructions(words, file):
    """How many instructions a run takes, in millions."""
    with tempfile.TemporaryDirectory() as folder:
        out = os.path.join(folder, "counts")
        run(["valgrind", "--tool=callgrind", "--callgrind-out-file=" + out, *words], file)
        with open(out, encoding="utf-8") as counts:
            return int(re.search(r"^(?:summary|totals): (\d+)", counts.read(), re.M)[1]) / 1e6


def times(programs, rounds):
    """The median time of each program in milliseconds, the programs in turn."""
    taken = {name: [] for name in programs}
    for _ in range(rounds):
        for name, words_and_file in programs.items():
            begun = time.perf_counter()
            run(*words_and_file)
            taken[name].append(1000 * (time.perf_counter() - begun))
    return {name: statistics.median(found) for name, found in taken.items()}


def line(name, found, compared):
    ratios = " | ".join(f"{found[here] / found[there]:.2f}" for here, there in compared)
    return f"| {name} | {' | '.join(f'{it:.1f}' for it in found.values())} | {ratios} |"


def main():
    parser = argparse.ArgumentParser(description=__doc__, formatter_class=argparse.RawDescriptionHelpFormatter)
    parser.add_argument("--tools", default=os.environ.get("AV1_TOOLS", BUILT))
    parser.add_argument("--tools-v3", metavar="PATH")
    parser.add_argument("--time", type=int, default=0, metavar="ROUNDS")
    parser.add_argument("folders", nargs="+", metavar="FOLDER")
    options = parser.parse_args()
    missing = [name for name in ("dav1d", "valgrind") if not shutil.which(name)]
    if missing:
        sys.exit(f"measure.py: {' and '.join(missing)} not found; run: apt-get install {' '.join(missing)}")
    built = {"here": options.tools} | ({"here, v3": options.tools_v3} if options.tools_v3 else {})
    for path in built.values():
        if not os.access(path, os.X_OK):
            sys.exit(f"measure.py: {path} not found; `rt run` in crates/av1_tools builds it")
    compared = pairs(built)
    titles = ["clip", *built, *MASKS, *(f"{here} / {there}" for here, there in compared)]
    print(f"| {' | '.join(titles)} |\n|{'---|' * len(titles)}")
    for folder in options.folders:
        programs = commands(built, folder)
        name = os.path.basename(os.path.normpath(folder))
        print(line(name, {it: instructions(*given) for it, given in programs.items()}, compared), flush=True)
        if options.time:
            print(line(name + ", ms", times(programs, options.time), compared), flush=True)


if __name__ == "__main__":
    main()
