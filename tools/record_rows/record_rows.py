#!/usr/bin/env python3
"""Records rows: calls on blocks and runs of the programs, each with what rav1e's own code returns.

    integrations/rav1e/source
    tools/record_rows/record_rows.py WORK FILE [FRAMES..]

WORK is a folder for build products. FILE is `crates/av1_rows/stdin`, or another file of rows (README.md here). The script writes FILE again, with
the same bytes each time, and what `av1_rows` prints for it to `stdout` in the same folder. It keeps the random inputs of runs and the rows of coded
clips that FILE has. FRAMES are files from `integrations/rav1e/corpus` and `tools/lossless_beside_decoders`: the rows of coded frames are then theirs.

It needs `cargo`, `rustc` and Python 3, and takes a few minutes. No result comes from this project:

- of calls on blocks, results are those of rav1e's functions (`recorder.rs`), and of rejected calls the status that docs/LIBRARY.md gives;
- of runs, they are those of `integrations/rav1e/answer`, cut by the rules of sources and sinks (`runs.py`) if a read or a write fails;
- of coded frames, they are a decoder's.
"""
import collections
import pathlib
import struct
import subprocess
import sys

HERE = pathlib.Path(__file__).resolve().parent
INTEGRATION = HERE.parent.parent / "integrations" / "rav1e"
RAV1E = INTEGRATION / "out/source/crates/rav1e-0.8.1"
sys.dont_write_bytecode = True
sys.path += [str(HERE), str(HERE.parent / "rav1e")]
import build_recorder
import departure_rows
import program_rows
import runs
import tool_rows

MAGIC = b"ROW1"
KINDS = ("program", "tools", "network", "transform", "put", "prepare", "average", "intra", "from luma", "edge", "luma", "availability")


def on_blocks(work):
    """The rows of calls on blocks."""
    build_recorder.build(RAV1E, work)
    return subprocess.run([str(work / "recorder")], capture_output=True, check=True).stdout


def wrapper():
    """The program that answers runs by rav1e's code."""
    program = subprocess.run([INTEGRATION / "answer", "--path"], stdout=subprocess.PIPE, text=True, check=True).stdout.strip()
    return runs.Wrapper(program)


def of_runs(stored, work):
    """The rows of runs: those that are written here, behind those of the programs and of the tools the stored ones whose input
    was drawn. WORK/names gets what each is, by its number."""
    rows = runs.Runs(wrapper())
    departure_rows.record(rows)
    for kind, record in ((runs.PROGRAM, program_rows.record), (runs.TOOLS, tool_rows.record)):
        record(rows)
        while stored[len(rows.rows)][0] == kind:
            rows.again("drawn", stored[len(rows.rows)])
    (work / "names").write_text("".join(f"{at} {name}\n" for at, name in enumerate(rows.names)))
    return b"".join(rows.rows)


def each(rows):
    """Each row."""
    at = 0
    while at < len(rows):
        length, = struct.unpack_from("<I", rows, at + 1)
        yield rows[at:at + 5 + length]
        at += 5 + length


def frames_of(stored):
    """The rows of coded frames, which stand behind the last call on a block."""
    last = max((at for at, row in enumerate(stored) if row[0] > runs.TOOLS), default=-1)
    return b"".join(stored[last + 1:])


def counted(rows):
    """How many rows of each kind there are."""
    counts = collections.Counter(row[0] for row in each(rows))
    return [counts[kind] for kind in range(len(KINDS))]


def rows_in(file):
    """The rows of a file."""
    data = file.read_bytes()
    if not data.startswith(MAGIC):
        sys.exit(f"record_rows.py: {file} is not a file of rows: it must begin with {MAGIC!r}")
    return data[len(MAGIC):]


def main():
    if len(sys.argv) < 3:
        sys.exit(__doc__)
    if not RAV1E.is_dir():
        sys.exit(f"record_rows.py: {RAV1E} not found; run {INTEGRATION / 'source'} first")
    work, file, *frames = map(pathlib.Path, sys.argv[1:])
    work.mkdir(parents=True, exist_ok=True)
    stored = list(each(rows_in(file)))
    of_frames = b"".join(map(rows_in, frames)) if frames else frames_of(stored)
    rows = of_runs(stored, work) + on_blocks(work) + of_frames
    lines = "".join(f"{kind}: {count} rows, 0 differ\n" for kind, count in zip(KINDS, counted(rows)))
    file.write_bytes(MAGIC + rows)
    file.with_name("stdout").write_text(lines)
    print(lines + f"{len(MAGIC + rows)} bytes")


if __name__ == "__main__":
    main()
