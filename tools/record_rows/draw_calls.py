#!/usr/bin/env python3
"""Draws block calls that are not stored, with rav1e's results.

    integrations/rav1e/source
    tools/record_rows/draw_calls.py WORK FILE SEED..

FILE gets rows as README.md here says, some 35,000 for each seed; seed 1 draws those of `crates/av1_rows/stdin`. WORK is a folder for what is built. It
needs `rustc` and Python 3. `av1_rows < FILE` replays them.
"""
import pathlib
import subprocess
import sys

import record_rows


def main():
    if len(sys.argv) < 4:
        sys.exit(__doc__)
    work, file = map(pathlib.Path, sys.argv[1:3])
    record_rows.build_recorder.build(record_rows.RAV1E, work)
    drawn = [subprocess.run([str(work / "recorder"), seed], capture_output=True, check=True).stdout for seed in sys.argv[3:]]
    file.write_bytes(record_rows.MAGIC + b"".join(drawn))


if __name__ == "__main__":
    main()
