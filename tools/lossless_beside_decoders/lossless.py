#!/usr/bin/env python3
"""Draws lossless AV1 frames and compares what two decoders and this project make of them.

    tools/lossless_beside_decoders/lossless.py [--seed S] [--frames N] [--depths 8,10,12] [--most SIDE] [--keep FOLDER]
                                               [--rows FILE] [--rav1e SOURCE] PROGRAM

PROGRAM is the built av1_vectors. Each of N seeds (300) from S (1) on draws one key frame: its depth, sampling, sides up to SIDE
(24), partition, intra modes, and coefficients in blocks of 4x4. The frame is written as an AV1 stream, which dav1d and aomdec
decode, and as a plan of version 3, which PROGRAM reconstructs. All samples are compared with those of dav1d's plain code.

Frames are of five kinds, by their coefficients:

- `few`: up to four small ones in a block;
- `coded`: those of a residual that an encoder codes, up to the greatest sample;
- `far`: those of a larger residual, which keeps within 16 bits once it is added to a sample;
- `farther`: those of a residual of up to depth + 8 bits;
- `any`: of any size, up to the limit and past it, where decoders clip them.

Both decoders run by their plain code and by their vector code. The vector code of aomdec, and at 8 bits also dav1d's, adds in
16 bits: if a sample and its residual sum to more than 32767, it writes 0 in place of the greatest sample. So vector code may
differ in the last two kinds.

A line names each frame that differs, with the first sample that does. FOLDER gets the stream and the plan of each. FILE gets
all plans as rows (tools/record_rows/README.md) with dav1d's samples, except monochrome ones. The status is 1 if a frame differs that may not:
PROGRAM or aomdec's plain code in any kind, vector code in the first three.

The decoders, and rav1e's source, whose tables of default frequencies are read, are those of `integrations/rav1e/source`: the oldest
dav1d and aomdec. Without it they are those of the system (apt-get install --no-install-recommends dav1d aom-tools librust-rav1e-dev).
SOURCE is another folder of rav1e. 300 frames take about 15 seconds.
"""
import argparse
import collections
import functools
import pathlib
import shutil
import subprocess
import sys
import tempfile

sys.dont_write_bytecode = True
REPOSITORY = pathlib.Path(__file__).resolve().parent.parent.parent
sys.path += [str(REPOSITORY / it) for it in ("tools/record_rows", "integrations/rav1e", "bindings/python")]
import bits
import frames
import symbols
import runs
from parts import build
from parts import decoders as installed

REFERENCE = "dav1d"
# Where the vector code of decoders may differ.
OVERFLOWING = ("farther", "any")
# How many bytes a source gives, and a sink takes, at once.
PIECE = 4096


@functools.cache
def decoders():
    """The command of each decoder, by its name."""
    paths = installed.found()
    dav1d, aomdec = (next(path for name, path in paths.items() if name.startswith(kind)) for kind in ("dav1d", "aomdec"))
    dav1d, aomdec = (dav1d, "-q", "--threads", "1", "--muxer", "yuv", "-o", "-"), (aomdec, "--rawvideo", "-o", "-")
    return {REFERENCE: (*dav1d, "--cpumask", "0", "-i"), "aomdec": ("env", "AOM_SIMD_CAPS=0", *aomdec),
            "dav1d's vectors": (*dav1d, "-i"), "aomdec's vectors": aomdec}


def answer(words, data=b""):
    """What a program writes; it ends this one if it fails."""
    done = subprocess.run(words, input=data, capture_output=True)
    if done.returncode:
        sys.exit(f"{' '.join(map(str, words))}: status {done.returncode}: {done.stderr.decode(errors='replace').strip()[:200]}")
    return done.stdout


def outputs(frame, stream, plan, program, folder):
    """What the decoders and the program make of a frame, by their names."""
    file = pathlib.Path(folder) / "frame.obu"
    file.write_bytes(stream)
    made = {name: answer((*words, str(file))) for name, words in decoders().items()}
    made["program"] = answer((program,), plan)
    if frame.is_monochrome:
        size = frame.width * frame.height * (1 if frame.depth == 8 else 2)
        made = {name: planes[:size] for name, planes in made.items()}
    return made


def first_difference(frame, wanted, given):
    """The first sample that differs, in words."""
    if len(wanted) != len(given):
        return f"{len(given)} bytes, {len(wanted)} by {REFERENCE}"
    size = 1 if frame.depth == 8 else 2
    at = next(at for at in range(0, len(wanted), size) if wanted[at:at + size] != given[at:at + size])
    values = [int.from_bytes(it[at:at + size], "little") for it in (wanted, given)]
    plane, row, column = frame.position(at // size)
    return f"{'YUV'[plane]} row {row} column {column}: {values[1]}, {values[0]} by {REFERENCE}"


def name_of(frame):
    return f"seed {frame.seed} ({frame.width}x{frame.height}, {frame.depth} bits, {'4:0:0' if frame.is_monochrome else frame.sampling}, {frame.kind})"


def row_of(plan, planes):
    """The row of a run of the program whose answer are these planes."""
    sinks = runs.Sink(len(planes), PIECE, runs.NEVER), runs.Sink(0, PIECE, runs.NEVER)
    return runs.row_of(runs.PROGRAM, (), (PIECE, runs.NEVER), sinks, plan, 0, (0, b"", planes))


class Comparison:
    """Frames compared so far, and what came of them."""

    def __init__(self, arguments, tables):
        self.arguments, self.tables = arguments, tables
        self.compared, self.differing = collections.Counter(), collections.Counter()
        self.rows, self.failed = [], 0

    def frame(self, seed, folder):
        frame = frames.Drawing(seed, self.arguments.most).frame
        if frame.depth not in self.arguments.depths:
            return
        stream, plan = bits.stream_of(frame, self.tables), bytes(frame)
        made = outputs(frame, stream, plan, self.arguments.program, folder)
        wanted = made[REFERENCE]
        differing = [name for name, planes in made.items() if planes != wanted]
        for name in differing:
            print(f"{name_of(frame)}: {name}: {first_difference(frame, wanted, made[name])}", flush=True)
        self.note(frame, differing, stream, plan)
        if self.arguments.rows and not frame.is_monochrome:
            self.rows.append(row_of(plan, wanted))

    def note(self, frame, differing, stream, plan):
        key = frame.depth, frame.kind
        self.compared[key] += 1
        self.differing.update((name, *key) for name in differing)
        self.failed += bool(differing) and (frame.kind not in OVERFLOWING or "program" in differing or "aomdec" in differing)
        if differing and self.arguments.keep:
            self.arguments.keep.mkdir(parents=True, exist_ok=True)
            (self.arguments.keep / f"{frame.seed}.obu").write_bytes(stream)
            (self.arguments.keep / f"{frame.seed}.plan").write_bytes(plan)

    def table(self):
        """How many frames were compared and differ, by depth and kind."""
        names = ["program", *(it for it in decoders() if it != REFERENCE)]
        lines = ["frames that differ from dav1d's plain code:", "depth  kind     frames  " + "  ".join(names)]
        for depth, kind in sorted(self.compared, key=lambda it: (it[0], frames.KINDS.index(it[1]))):
            counts = "  ".join(f"{self.differing[name, depth, kind]:{len(name)}}" for name in names)
            lines.append(f"{depth:5}  {kind:7}  {self.compared[depth, kind]:6}  {counts}")
        return "\n".join(lines)


def arguments():
    parser = argparse.ArgumentParser(usage=__doc__, add_help=False)
    parser.add_argument("--seed", type=int, default=1)
    parser.add_argument("--frames", type=int, default=300)
    parser.add_argument("--depths", type=lambda it: tuple(map(int, it.split(","))), default=frames.DEPTHS)
    parser.add_argument("--most", type=int, choices=range(1, 65), default=24)
    parser.add_argument("--keep", type=pathlib.Path)
    parser.add_argument("--rows", type=pathlib.Path)
    parser.add_argument("--rav1e", type=pathlib.Path, default=build.default_source())
    parser.add_argument("program")
    given = parser.parse_args()
    if not shutil.which(given.program):
        sys.exit(f"lossless.py: {given.program} is not a program; `rt run` in crates/av1_vectors builds out/av1_vectors")
    if not (given.rav1e / "src/token_cdfs.rs").is_file():
        sys.exit(f"lossless.py: {given.rav1e}, rav1e's source, is missing; run: integrations/rav1e/source")
    return given


def main():
    given = arguments()
    comparison = Comparison(given, symbols.Tables(given.rav1e))
    with tempfile.TemporaryDirectory() as folder:
        for seed in range(given.seed, given.seed + given.frames):
            comparison.frame(seed, folder)
            if seed % 500 == 0:
                print(f"seed {seed}", file=sys.stderr)
    if given.rows:
        given.rows.write_bytes(b"ROW1" + b"".join(comparison.rows))
        print(f"{len(comparison.rows)} rows")
    print(comparison.table())
    print(f"{comparison.compared.total()} frames of seeds {given.seed} to {given.seed + given.frames - 1}: "
          f"{comparison.failed} differ that may not")
    return int(comparison.failed > 0)


if __name__ == "__main__":
    sys.exit(main())
