#!/usr/bin/env python3
"""Counts what the accepted rows of version 3 have, for the table of docs/TESTED.md.

    tools/record_rows/coverage.py crates/av1_rows/stdin

Rows before the last block call have results of rav1e's code, the others results of dav1d. `N in M` counts leaves, and the rows
that have any. The traces of other encoders' streams aren't counted.
"""
import collections
import pathlib
import struct
import sys

HERE = pathlib.Path(__file__).resolve().parent
sys.dont_write_bytecode = True
sys.path += [str(HERE), str(HERE.parent.parent / "bindings/python")]
import runs
from tilgwaren import Plan

LARGE = 1 << 14
# The lines that stand first, in this order; the others are sorted.
LINES = ("rows", "width or height not a multiple of 8", "hidden frames", "slots shown again",
         "lossless frames with a coefficient of 2^14 or more at depth 10 or 12", "inter leaves with a dimension of 4", "of these with the sharp filter")
FRONT_OF_SEQUENCE, FRONT_OF_TRACE, FRONT_OF_FRAME = 12, 8, 10
HIDDEN, SHOWN, AGAIN = range(3)


class Row(runs.Run):
    """A stored run, with its status."""

    def __init__(self, row):
        super().__init__(row)
        self.status, = self.fields("B")
        self.entries = collections.Counter()

    def plans(self):
        """The plans and grids of version 3 in the input; `entries` then counts a sequence's kinds of entries."""
        start = self.data[:4]
        if start == b"RPL3" or start == b"RTL2":
            yield Plan.read(self.data)
        elif start == b"RTR1" and self.data[FRONT_OF_TRACE:FRONT_OF_TRACE + 4] == b"RPL3":
            length, = struct.unpack_from("<I", self.data, 4)
            yield Plan.read(self.data[FRONT_OF_TRACE:FRONT_OF_TRACE + length])
        elif start == b"RSQ2":
            yield from self.frames()

    def frames(self):
        """The plans of a sequence's frames, without references."""
        at = FRONT_OF_SEQUENCE
        while at < len(self.data):
            kind = self.data[at]
            self.entries[kind] += 1
            at += 3 if kind == AGAIN else 1
            if kind != AGAIN:
                head, length = self.data[at:at + FRONT_OF_FRAME], struct.unpack_from("<I", self.data, at + FRONT_OF_FRAME)[0]
                at += FRONT_OF_FRAME + 4 + length
                yield Plan.read(b"RPL3" + self.data[4:10] + head[:9] + b"\0" + self.data[at - length:at])


def leaves_of(plan):
    """How many leaves of each kind a plan has."""
    counts = collections.Counter()
    for group in plan.chroma_groups():
        for leaf in (leaf for leaf in group if leaf.vectors and min(leaf.width, leaf.height) == 4):
            counts["inter leaves with a dimension of 4"] += 1
            counts["of these with the sharp filter"] += plan.filter == "sharp"
        if len(group) > 1 and group[-1].vectors:
            counts[shared(plan, group)] += 1
    return counts


def shared(plan, group):
    """How the chroma is predicted that leaves share, of which the last has references."""
    if not all(leaf.vectors for leaf in group):
        return "shared chroma predicted as a whole, because one leaf is intra"
    return f"chroma shared in parts: {group[-1].width}x{group[-1].height} of {plan.sampling}"


def is_large(plan):
    """Whether a frame is lossless throughout, of more than 8 bits, and has a very large coefficient."""
    leaves = list(plan.leaves())
    lossless = plan.depth > 8 and all(leaf.tx_type == "WHT_WHT" for leaf in leaves)
    return lossless and any(abs(value) >= LARGE for leaf in leaves for block in leaf.coefficient_lists() for _, _, value in block)


def count(rows):
    """The counts of these rows."""
    total, having = collections.Counter(), collections.Counter()
    for row in rows:
        plans = list(row.plans())
        total["rows"] += bool(plans) or row.data[:4] == b"RSQ2"
        total["width or height not a multiple of 8"] += any(plan.width % 8 or plan.height % 8 for plan in plans)
        total["lossless frames with a coefficient of 2^14 or more at depth 10 or 12"] += sum(map(is_large, plans))
        total["hidden frames"] += row.entries[HIDDEN]
        total["slots shown again"] += row.entries[AGAIN]
        leaves = sum(map(leaves_of, plans), collections.Counter())
        total.update(leaves)
        having.update(leaves.keys())
    return total, having


def rows_of(path):
    """The accepted runs of a file, with their numbers, and the number of its last block call."""
    data, at, number, last, found = path.read_bytes(), 4, 0, 0, []
    while at < len(data):
        length, = struct.unpack_from("<I", data, at + 1)
        if data[at] > runs.TOOLS:
            last = number
        else:
            row = Row(data[at:at + 5 + length])
            if row.status in (0, 7):
                found.append((number, row))
        at, number = at + 5 + length, number + 1
    return found, last


def table(groups):
    """The table's lines."""
    counts = [count(group) for group in groups]
    for name in (*LINES, *sorted(set().union(*(total for total, _ in counts)) - set(LINES))):
        cells = (f"{total[name]:,} in {having[name]}" if having[name] else f"{total[name]:,}" for total, having in counts)
        yield f"| {name} | {' | '.join(cells)} |"


def main():
    if len(sys.argv) != 2:
        sys.exit(__doc__)
    found, last = rows_of(pathlib.Path(sys.argv[1]))
    grids = [row for number, row in found if row.words == ("tiles",) and number < last]
    others = [(number, row) for number, row in found if row.words != ("tiles",)]
    ours, clips = ([row for number, row in others if number < last], [row for number, row in others if number > last and row.words != ("trace",)])
    print("\n".join(("| | from rav1e's code | from dav1d | grids, from rav1e's code |", "|---|---|---|---|", *table((ours, clips, grids)))))


if __name__ == "__main__":
    main()
