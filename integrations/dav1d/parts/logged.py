"""Reads the log of plan_log.c: frames, their leaves, and the samples of planes and references."""
import struct

FRAME, BLOCK, TRANSFORM, REFERENCE, PLANES, END = range(1, 7)

# What the numbers of a record are, in order.  Places and sizes of leaves are in units of 4 luma samples.
FRAME_FIELDS = "number type width height depth layout sb128 filter edge tile_columns tile_rows".split()
LEAF_FIELDS = "x y w h side partition chroma kind lossless".split()
INTRA_FIELDS = "tx mode angle uv_mode uv_angle cfl_u cfl_v palette".split()
INTER_FIELDS = "tx mode ref0 y0 x0 ref1 y1 x1 compound interintra motion warp filter_x filter_y".split()
INTRA, COPY, INTER = range(3)

# Width and height of each transform size, by its number.
SIZES = [(4, 4), (8, 8), (16, 16), (32, 32), (64, 64), (4, 8), (8, 4), (8, 16), (16, 8), (16, 32), (32, 16), (32, 64), (64, 32),
         (4, 16), (16, 4), (8, 32), (32, 8), (16, 64), (64, 16)]


class Transform:
    """A transform block with coefficients: its place, plane, size, type, coefficients, and the samples predicted there."""

    def __init__(self, numbers):
        self.x, self.y, self.plane, self.size, self.type, count = numbers[:6]
        self.coefficients = [(numbers[i], numbers[i + 1]) for i in range(6, 6 + 2 * count, 2)]
        self.predicted = bytes(numbers[6 + 2 * count:].cast("B"))


class Leaf:
    """A block of the stream."""

    def __init__(self, numbers, number):
        self.number = number
        own = INTRA_FIELDS if numbers[7] == INTRA else INTER_FIELDS
        self.__dict__.update(zip(LEAF_FIELDS + own, numbers))
        self.blocks = []

    def coded(self, luma):
        return [block for block in self.blocks if (block.plane == 0) == luma]

    def vectors(self):
        """For each reference its name from 0, and the vector's row and column."""
        if self.kind != INTER:
            return []
        return [(self.ref0, self.y0, self.x0)] + ([(self.ref1, self.y1, self.x1)] if self.ref1 >= 0 else [])

    def holds(self, x, y, w, h):
        return self.x <= x and self.y <= y and x + w <= self.x + self.w and y + h <= self.y + self.h


class Frame:
    """A frame.  One in monochrome gets grey chroma of 4:2:0, which DC prediction and motion leave grey."""

    def __init__(self, numbers):
        self.__dict__.update(zip(FRAME_FIELDS, numbers))
        rest = numbers[len(FRAME_FIELDS):]
        self.slots, self.scaled, self.warped, starts = rest[:7], rest[7:14], rest[14:21], rest[21:]
        self.column_starts, self.row_starts = starts[:self.tile_columns - 1], starts[self.tile_columns - 1:]
        self.columns, self.rows = (self.width + 7) // 8 * 2, (self.height + 7) // 8 * 2
        self.mono = self.layout == 0
        self.layout = self.layout or 1
        self.half_x, self.half_y = int(self.layout < 3), int(self.layout == 1)
        self.wide = 1 + (self.depth > 8)
        self.leaves, self.references, self.planes, self.error = [], {}, b"", 0

    def add(self, leaf):
        if self.mono:
            leaf.chroma = (leaf.w > 1 or leaf.x & 1) and (leaf.h > 1 or leaf.y & 1)
        self.leaves.append(leaf)

    def sides(self, plane, coded):
        """The width and height of a plane: as shown, or of what is coded."""
        x, y = (self.half_x, self.half_y) if plane else (0, 0)
        width, height = (4 * self.columns, 4 * self.rows) if coded else (self.width, self.height)
        return (width + x) >> x, (height + y) >> y

    def rectangle(self, leaf, plane):
        """Column, row, width and height of what a leaf covers in a plane."""
        if not plane:
            return 4 * leaf.x, 4 * leaf.y, 4 * leaf.w, 4 * leaf.h
        x, y = self.half_x, self.half_y
        return 4 * (leaf.x >> x), 4 * (leaf.y >> y), max(4, 4 * leaf.w >> x), max(4, 4 * leaf.h >> y)

    def with_grey(self, samples, coded):
        if not self.mono:
            return samples
        width, height = self.sides(1, coded)
        return samples + (1 << self.depth - 1).to_bytes(self.wide, "little") * (2 * width * height)

    def resized(self, samples, to_coded):
        """Planes as shown, with the last column and row repeated up to what is coded; or the other way, cut."""
        out, at = bytearray(), 0
        for plane in range(3):
            (w, h), (to_w, to_h) = self.sides(plane, not to_coded), self.sides(plane, to_coded)
            for row in range(to_h):
                start = at + min(row, h - 1) * w * self.wide
                line = samples[start:start + w * self.wide]
                out += line[:to_w * self.wide] + line[-self.wide:] * max(0, to_w - w)
            at += w * h * self.wide
        return bytes(out)

    def tile(self, x, y):
        """The number of the tile that holds this place."""
        column = sum(4 * x >= start for start in self.column_starts)
        return sum(4 * y >= start for start in self.row_starts) * self.tile_columns + column


def records(stream):
    """The tag and the numbers of each whole record."""
    while True:
        head = stream.read(8)
        if len(head) < 8:
            return
        tag, count = struct.unpack("=ii", head)
        body = stream.read(4 * count)
        if len(body) < 4 * count:
            return
        yield tag, memoryview(body).cast("i")


def frames(stream):
    """The frames of a log, in coding order; `error` is not 0 if the decoder rejected the frame."""
    frame = None
    for tag, numbers in records(stream):
        if tag == FRAME:
            frame = Frame(numbers.tolist())
        elif tag == BLOCK:
            frame.add(Leaf(numbers.tolist(), len(frame.leaves)))
        elif tag == TRANSFORM:
            frame.leaves[-1].blocks.append(Transform(numbers))
        elif tag in (REFERENCE, PLANES):
            samples = bytes(numbers[2:].cast("B")[:numbers[1]])
            if tag == PLANES:
                frame.planes = frame.with_grey(samples, True)
            else:
                frame.references[numbers[0]] = samples
        elif tag == END:
            frame.error = numbers[0]
            yield frame
