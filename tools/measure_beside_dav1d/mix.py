#!/usr/bin/env python3
"""Records which block calls nine coded streams make, and writes mix.tsv.

usage: mix.py [--archive FILE] FOLDER

FOLDER gets the streams: three of each of rav1e, aomenc and SVT-AV1, encoded by `integrations/dav1d/streams`.  dav1d decodes
them on the library (integrations/dav1d/on_library), which writes a line for each call.  A line of mix.tsv has the kind of a
call, the depth, width and height, three numbers (add_call in library.c says which), and how many calls are counted by it.
Calls that differ only in the angle of a direction, or in the end of block within a factor of 2, are counted by one of them,
the median.  FILE is libtilgwaren.a; without it the archive of bindings/out is used.
"""
import argparse
import collections
import os
import subprocess
import sys
import tempfile

HERE = os.path.dirname(os.path.abspath(__file__))
DAV1D = os.path.normpath(os.path.join(HERE, "../../integrations/dav1d"))
sys.dont_write_bytecode = True
sys.path.append(os.path.join(DAV1D, "on_library"))
import build

MIX = os.path.join(HERE, "mix.tsv")
STREAMS = [
    "12 rav1e garden",
    "12 rav1e tree --speed 2",
    "12 rav1e people10 --speed 8",
    "12 aomenc garden --cpu-used=3",
    "12 aomenc people10 --cpu-used=5 --bit-depth=10",
    "12 aomenc screen --cpu-used=4 --tune-content=screen",
    "sid SvtAv1EncApp garden",
    "sid SvtAv1EncApp tree --preset 4",
    "sid SvtAv1EncApp people10 --preset 7",
]
ANGLES = (0, 90, 180, 45, 135, 113, 157, 203, 67)
BILINEAR = 3


def encoded(folder):
    """The streams' files."""
    for line in STREAMS:
        subprocess.run([os.path.join(DAV1D, "streams"), folder, "--line", line], check=True)
    return sorted(os.path.join(folder, name) for name in os.listdir(folder) if name.endswith(".ivf"))


def calls_of(dav1d, stream):
    """The library's calls while dav1d decodes a stream, each as its numbers."""
    with tempfile.NamedTemporaryFile("r") as file:
        words = [dav1d, "-q", "-i", stream, "-o", os.devnull, "--muxer", "null", "--threads", "1", "--cpumask", "256"]
        subprocess.run(words, env={**os.environ, "LIBRARY_CALLS": file.name}, check=True)
        for name, bits, *numbers in map(str.split, file):
            if not name.startswith("own_"):
                yield name, 8 if bits == "8" else 10, *map(int, numbers)


def without_unused(call):
    """The same call, with a filter that isn't used replaced by the first filter."""
    name, depth, width, height, a, b, c = call
    if name in ("put", "prep") and b != BILINEAR:
        b, c = (b if a & 1 else 0), (c if a & 2 else 0)
    return name, depth, width, height, a, b, c


def group(call):
    """A key of the calls that are counted by one of them, and by what they are sorted."""
    name, depth, width, height, a, b, c = call
    if name == "itx":
        return (name, depth, width, height, a, b.bit_length()), b
    if name == "intra" and a <= 8 and (a > 2 or b):
        angle = ANGLES[a] + 3 * b
        return (name, depth, width, height, angle // 90, c), angle
    return call, 0


def median(members):
    """The call in the middle of (order, call, count)."""
    left = sum(count for _, _, count in members) / 2
    for _, call, count in sorted(members):
        left -= count
        if left <= 0:
            return call


def grouped(counts):
    groups = collections.defaultdict(list)
    for call, count in counts.items():
        key, order = group(call)
        groups[key].append((order, call, count))
    return {median(members): sum(count for _, _, count in members) for members in groups.values()}


def main():
    parser = argparse.ArgumentParser(description=__doc__, formatter_class=argparse.RawDescriptionHelpFormatter)
    parser.add_argument("folder")
    build.add_archive(parser)
    options = parser.parse_args()
    dav1d = os.path.join(build.build(options.archive), "tools/dav1d")
    counts = collections.Counter()
    for stream in encoded(os.path.abspath(options.folder)):
        before = counts.total()
        counts.update(map(without_unused, calls_of(dav1d, stream)))
        print(f"{os.path.basename(stream)}: {counts.total() - before:,} calls", flush=True)
    lines = grouped(counts)
    with open(MIX, "w", encoding="utf-8") as file:
        for call, count in sorted(lines.items()):
            print(*call, count, sep="\t", file=file)
    print(f"{counts.total():,} calls, {len(counts):,} different ones, {len(lines):,} lines of mix.tsv")


if __name__ == "__main__":
    main()
