"""Runs the program on a frame's plans, and names the first leaf that differs."""
import os
import shutil
import struct
import subprocess
import sys

from . import plans, tools
from .logged import INTER, INTRA

MODES = ("DC V H D45 D135 D113 D157 D203 D67 SMOOTH SMOOTH_V SMOOTH_H PAETH from_luma").split()
ROOT = os.path.abspath(os.path.join(os.path.dirname(__file__), "../../.."))
MOST = 2048  # the largest width or height of a plan


def program(name, given=None):
    """The path of a program: as given, by $AV1_TOOLS or $AV1_VIEW, as built in this repository, or installed."""
    given = given or os.environ.get(name.upper())
    path = given or os.path.join(ROOT, "crates", name, "out", name)
    if not given and not os.access(path, os.X_OK):
        path = shutil.which(name) or path
    if not os.access(path, os.X_OK) or os.path.isdir(path):
        print(f"{path} is missing: install a release, run `rt run` in crates/{name}, or set ${name.upper()} to its path",
              file=sys.stderr)
        sys.exit(4)
    return path


def run(command, text):
    done = subprocess.run(command, input=text, capture_output=True, check=False)
    return done.returncode, done.stdout, done.stderr.decode(errors="replace").strip()


def trace(plan):
    return b"RTR1" + struct.pack("<I", len(plan.text)) + plan.text + plan.planes


def leaf_at(plan, plane, row, column):
    """The leaf that has a sample; of leaves that share chroma the one that carries it."""
    half_x, half_y = (plan.frame.half_x, plan.frame.half_y) if plane else (0, 0)
    return plan.cut.cells[(column << half_x) // 4 | half_x, (row << half_y) // 4 | half_y]


def grid_difference(plan, defined):
    """The first sample that differs in the first leaf, in coding order, that has one: plane, row, column and both values."""
    frame, wide, start, best = plan.frame, plan.frame.wide, 0, None
    for plane in range(3):
        width, height = frame.sides(plane, plan.coded)
        for row in range(height):
            at = start + row * width * wide
            ours, theirs = defined[at:at + width * wide], plan.planes[at:at + width * wide]
            if ours == theirs:
                continue
            for column in range(width):
                values = [int.from_bytes(line[column * wide:(column + 1) * wide], "little") for line in (theirs, ours)]
                if values[0] != values[1]:
                    key = (leaf_at(plan, plane, row, column).number, plane, row, column)
                    best = min(best or (key, values), (key, values))
        start += width * height * wide
    return (*best[0][1:], *best[1])


def difference(tool, plan):
    """None, or plane, row, column, the decoder's value and the defined one; and how many leaves differ (bytes in a grid)."""
    if plan.is_grid:
        status, out, error = run([tool, "tiles"], plan.text)
        if status == 0:
            count = sum(ours != theirs for ours, theirs in zip(out, plan.planes))
            return (grid_difference(plan, out), count) if count else (None, 0)
    else:
        status, out, error = run([tool, "trace"], trace(plan))
        words = out.decode().split()
        if status == 0 and words[:1] == ["same"]:
            return None, 0
        if words[:1] == ["leaf"]:
            return tuple(int(words[i]) for i in (3, 5, 7, 9, 11)), words.count("leaf")
    sys.exit(f"{tool} {'tiles' if plan.is_grid else 'trace'} ended with status {status}: {error}")


def described(plan, found):
    """The leaf that differs, in one line, and as fields for --json."""
    plane, row, column, decoder, defined = found
    leaf = leaf_at(plan, plane, row, column)
    if leaf.kind == INTRA:
        mode = MODES[leaf.uv_mode] if plane else (MODES[:-1] + ["filter intra"])[leaf.mode]
    else:
        mode = ("intra block copy", "one reference", "two references")[len(leaf.vectors()) if leaf.kind == INTER else 0]
    fields = {"leaf": leaf.number, "x": 4 * leaf.x, "y": 4 * leaf.y, "width": 4 * leaf.w, "height": 4 * leaf.h,
              "mode": mode, "judged": plan.level(leaf), "plane": "YUV"[plane], "row": row, "column": column,
              "decoder": decoder, "defined": defined}
    line = (f"leaf {leaf.number} at {4 * leaf.x},{4 * leaf.y}, {4 * leaf.w}x{4 * leaf.h}, {mode}: plane {'YUV'[plane]} row {row} "
            f"column {column} decoder {decoder} defined {defined}")
    return line, fields


class Judged:
    """A frame, its plans, how its leaves are judged, and the first leaf that differs."""

    def __init__(self, frame, tool):
        self.frame, self.plans, self.line, self.fields, self.worst = frame, [], None, None, None
        self.lacks, self.levels, self.found, self.differing = [], [], [], 0
        if frame.error:
            self.why = "not judged: the decoder rejects the frame"
            return
        self.why = f"not judged: over {MOST}" if max(4 * frame.columns, 4 * frame.rows) > MOST else None
        self.lacks = plans.lacks(frame)
        self.levels = [plans.GIVEN] * len(frame.leaves)
        if self.why:
            return
        self.plans, self.levels = plans.plans(frame, self.lacks)
        for plan in self.plans:
            found, count = difference(tool, plan)
            self.differing += count
            if found and not self.line:
                self.line, self.fields = described(plan, found)
                self.worst = plan

    def blocking(self):
        """For each tool that plans lack, the leaves that aren't judged whole for it; most first."""
        if not self.plans:
            return {}
        counts = {}
        for leaf, level, found in zip(self.frame.leaves, self.levels, self.lacks):
            if level != plans.WHOLE:
                for tool in found - tools.NODES or {"lossless chroma" if leaf.limit else "order or neighbours"}:
                    counts[tool] = counts.get(tool, 0) + 1
        return dict(sorted(counts.items(), key=lambda item: (-item[1], item[0])))

    def record(self):
        """The counts of the frame, for --json; samples are of luma."""
        frame, leaves, samples = self.frame, {}, {}
        for leaf, level in zip(frame.leaves, self.levels):
            leaves[level] = leaves.get(level, 0) + 1
            inside = (min(leaf.x + leaf.w, frame.columns) - leaf.x) * (min(leaf.y + leaf.h, frame.rows) - leaf.y)
            samples[level] = samples.get(level, 0) + 16 * inside
        result = "differs" if self.line else "not judged" if self.why else "same"
        return {"number": frame.number, "inter": frame.type in (1, 3), "width": frame.width, "height": frame.height,
                "depth": frame.depth, "sampling": ("4:0:0" if frame.mono else ("4:2:0", "4:2:2", "4:4:4")[frame.layout - 1]),
                "plans": len(self.plans), "leaves": leaves, "samples": samples, "lacks": self.blocking(), "result": result,
                "first": self.fields}
