#!/usr/bin/env python3
"""Draws runs of the programs that are not stored, with the results of rav1e's own functions.

    integrations/rav1e/source
    tools/record_rows/draw_runs.py FILE SEED..

FILE gets rows as README.md here says, some 120 for each seed: plans of each version, grids, traces, sequences and plans without their coefficients,
and each of them broken in one way. `av1_rows < FILE` replays them. If rav1e differs from AV1 in version 3 (`integrations/rav1e/answer`) there is no row.
It needs `cargo` and Python 3.
"""
import pathlib
import sys

sys.dont_write_bytecode = True
import plans
import record_rows
import runs
import tilgwaren
from tilgwaren.fields import FILTERS, PARTITIONS, SAMPLINGS, TX_SIZES, places

FROM_LUMA = 13


class Numbers:
    """Numbers from a seed, by splitmix64."""

    def __init__(self, seed):
        self.state = seed

    def below(self, n):
        mask = 2**64 - 1
        self.state = self.state + 0x9e3779b97f4a7c15 & mask
        mixed = (self.state ^ self.state >> 30) * 0xbf58476d1ce4e5b9 & mask
        mixed = (mixed ^ mixed >> 27) * 0x94d049bb133111eb & mask
        return (mixed ^ mixed >> 31) % n

    def within(self, most):
        """A number of at most this magnitude."""
        return self.below(2 * most + 1) - most

    def one_in(self, n):
        return self.below(n) == 0

    def one_of(self, them):
        return them[self.below(len(them))]


class Frame(tilgwaren.Plan):
    """What is drawn of a frame before its leaves; `carried` has the slots that carry planes, and `empty` says that none does."""

    def __init__(self, numbers, version, empty=False, most=40):
        step = 1 if version == 3 else 8
        width, height = (step * (1 + numbers.below(most // step)) for _ in range(2))
        super().__init__(width, height, numbers.one_of((8, 10, 12)), numbers.one_of(SAMPLINGS), numbers.one_of(FILTERS), numbers.below(2),
                         tuple(numbers.below(3) for _ in range(7)), version)
        self.numbers, self.carried = numbers, [] if empty else [slot for slot in sorted(set(self.slots)) if numbers.one_in(2)]

    def planes(self):
        """Planes of slopes and noise."""
        out = bytearray()
        for width, height in self.dimensions():
            across, down, grain = self.numbers.below(40), self.numbers.below(40), self.numbers.one_of((1, 8, 1 << self.depth))
            for y in range(height):
                for x in range(width):
                    value = (across * x + down * y + self.numbers.below(grain)) % (1 << self.depth)
                    out += value.to_bytes(1 if self.depth == 8 else 2, "little")
        return bytes(out)

    def drawn_leaves(self, width=None, height=None):
        """The leaves of the frame, or of a tile of these sides."""
        return Leaves(self, width or self.width, height or self.height).all()

    def plan(self):
        self.references = {slot: self.planes() for slot in self.carried}
        self.superblocks = [[self.drawn_leaves()]]
        return bytes(self)

    def grid(self):
        """A grid of tiles over a frame that is made wider or higher, or of one tile."""
        self.columns, self.rows = ((64,) * self.numbers.below(2) for _ in range(2))
        self.width, self.height = self.width + sum(self.columns), self.height + sum(self.rows)
        ends = (*self.columns, self.width), (*self.rows, self.height)
        spans = [[last - first for first, last in zip((0, *it), it)] for it in ends]
        self.superblocks = [[self.drawn_leaves(width, height)] for height in spans[1] for width in spans[0]]
        self.references = {slot: self.planes() for slot in self.carried}
        return bytes(self)


class Leaves:
    """Draws the leaves of a rectangle."""

    def __init__(self, frame, width, height):
        self.frame, self.numbers = frame, frame.numbers
        self.width, self.height = ((side + 7) // 8 * 8 for side in (width, height))
        self.references = [number for number, slot in enumerate(frame.slots, 1) if slot in frame.carried]

    def all(self):
        return b"".join(self.node(x, y, 64) for y in range(0, self.height, 64) for x in range(0, self.width, 64))

    def node(self, x, y, side):
        tall = self.frame.sampling != "4:2:2"
        whole = x + side <= self.width and y + side <= self.height
        quarters = ["HORZ_4", "VERT_4"][:1 + tall] if self.frame.version > 1 and side > 8 and whole else []
        partition = self.numbers.one_of(["NONE", "HORZ", "SPLIT", "SPLIT", *["VERT"] * tall, *quarters])
        text = bytes([PARTITIONS[partition]])
        for left, top, width, height in places(partition, x, y, side):
            if left < self.width and top < self.height:
                text += self.node(left, top, width) if partition == "SPLIT" and side > 8 else self.leaf(left, top, width, height)
        return text

    def leaf(self, x, y, width, height):
        carried = tilgwaren.Leaf(x, y, width, height).carries_chroma(self.frame.halved)
        size = self.numbers.one_of([n for n, (w, h) in enumerate(TX_SIZES) if w <= width and h <= height])
        chroma = tuple(min(max(side >> dec, 4), 32) for side, dec in zip((width, height), self.frame.halved))
        area = tuple(max(side >> dec, 4) for side, dec in zip((width, height), self.frame.halved))
        first = tuple((place // 4 >> dec) * 4 for place, dec in zip((x, y), self.frame.halved))
        coded = tuple(side >> dec for side, dec in zip((self.width, self.height), self.frame.halved))
        y_triples = self.triples((x, y), (width, height), TX_SIZES[size], (self.width, self.height))
        u, v = (self.triples(first, area, chroma, coded) if carried else () for _ in range(2))
        return plans.leaf(tx_size=size, tx_type=self.kind(TX_SIZES[size]), uv_type=self.kind(chroma), y=y_triples, u=u, v=v, carried=carried,
                          **self.prediction(width, height))

    def prediction(self, width, height):
        """Modes, steps and weights, or references and vectors."""
        numbers = self.numbers
        if self.references and (self.frame.version == 3 or min(width, height) > 4) and not numbers.one_in(3):
            mode = 14 + numbers.below(20)
            reach = numbers.one_of((8, 64, 300, 16383))
            vectors = [(numbers.one_of(self.references), numbers.within(reach), numbers.within(reach)) for _ in range(1 if mode < 20 else 2)]
            return {"mode": mode, "vectors": vectors}
        mode, chroma = numbers.below(FROM_LUMA), numbers.below(FROM_LUMA)
        weights = (numbers.within(16), numbers.within(16)) if max(width, height) <= 32 and numbers.one_in(4) else None
        return {"mode": mode, "step": self.step(mode), "chroma": (chroma, self.step(chroma)), "weights": weights}

    def step(self, mode):
        return self.numbers.within(3) if 1 <= mode <= 8 else 0

    def kind(self, size):
        """A type that this size has."""
        if max(size) == 64:
            return 0
        return self.numbers.one_of((0, 9)) if max(size) == 32 else self.numbers.below(16 + (size == (4, 4)))

    def triples(self, first, area, size, coded):
        """Coefficients of blocks that begin in what is coded."""
        across, down = (side // each for side, each in zip(area, size))
        blocks = [row * across + column for row in range(down) for column in range(across)
                  if first[0] + column * size[0] < coded[0] and first[1] + row * size[1] < coded[1]]
        places = min(size[0], 32) * min(size[1], 32)
        count = self.numbers.one_of((0, 0, 1, 2, 5))
        at = {(self.numbers.one_of(blocks), self.numbers.below(self.numbers.one_of((1, places)))) for _ in range(count)} if blocks else ()
        most = self.numbers.one_of((200, (1 << self.frame.depth + 7) - 1))
        return [(*it, self.numbers.within(most)) for it in sorted(at)]


def sequence(numbers, version):
    """A sequence of up to four frames, of which the first has no references."""
    first = Frame(numbers, version, empty=True, most=24)
    filled, entries = 0, []
    for _ in range(1 + numbers.below(4)):
        frame = Frame(numbers, version)
        frame.width, frame.height, frame.depth, frame.sampling = first.width, first.height, first.depth, first.sampling
        frame.carried = [slot for slot in frame.slots if filled >> slot & 1]
        refresh = numbers.below(256)
        filled |= refresh
        entries.append((numbers.below(2), frame, refresh))
        if version == 3 and numbers.one_in(3):
            slot = numbers.one_of([slot for slot in range(8) if filled >> slot & 1] or [0])
            entries.append((plans.AGAIN, slot, 0))
    text = (b"RSQ2" if version == 3 else b"RSQ1") + first.header()[4:10] + len(entries).to_bytes(2, "little")
    for kind, *fields in entries:
        text += bytes([kind]) if version == 3 else b""
        if kind == plans.AGAIN and version == 3:
            text += bytes(fields)
            continue
        frame, refresh = fields
        text += frame.header()[10:19] + bytes([refresh]) + plans.part(frame.drawn_leaves())
    return text


def trace(numbers, version):
    """A plan with planes of noise."""
    frame = Frame(numbers, version)
    return tilgwaren.trace(frame.plan(), frame.planes())


def broken(numbers, file):
    """A file that is cut, longer, or has another byte."""
    way = numbers.below(6)
    if way < 2:
        return file[:numbers.below(len(file))] if way else file + b"\0"
    return plans.changed(file, (numbers.below(len(file)), numbers.below(256)))


def files(numbers):
    """Kind, words and file of runs."""
    for version in (1, 2, 3, 3):
        for _ in range(7):
            yield runs.PROGRAM, (), Frame(numbers, version).plan()
        for _ in range(2):
            yield runs.TOOLS, ("trace",), trace(numbers, version)
            yield runs.TOOLS, ("bare",), Frame(numbers, version).plan()
            yield runs.TOOLS, ("sequence",), sequence(numbers, version)
            if version > 1:
                yield runs.TOOLS, ("tiles",), Frame(numbers, version, most=32).grid()


def main():
    if len(sys.argv) < 3:
        sys.exit(__doc__)
    file, *seeds = sys.argv[1:]
    rows, missing = runs.Runs(record_rows.wrapper()), 0
    for seed in map(int, seeds):
        numbers = Numbers(seed)
        for kind, words, data in files(numbers):
            for it in (data, broken(numbers, data)):
                known = rows.wrapper.run((*(["tools"] if kind == runs.TOOLS else []), *words), it)[0]
                if known in runs.ANSWERS:
                    rows.add("drawn", it, words, kind, piece=4096, out=(2**20, 65536, runs.NEVER))
                else:
                    missing += 1
    pathlib.Path(file).write_bytes(record_rows.MAGIC + b"".join(rows.rows))
    print(f"{len(rows.rows)} rows, and {missing} runs to which rav1e's code has no answer")


if __name__ == "__main__":
    main()
