"""Writes the plans of a frame (docs/PLAN_FORMAT.md), each with the decoder's planes."""
import struct

from . import tools
from .cut import Cut, Piece
from .logged import INTER, INTRA, SIZES

FROM_LUMA, ONE, TWO = 13, 19, 33
WHOLE, RESIDUAL, GIVEN = "whole", "residual", "given"


class Plan:
    """A plan or a grid of tiles, the planes that it should give, and how it judges each leaf."""

    def __init__(self, frame, cut, found, filter_):
        self.frame, self.cut, self.filter = frame, cut, filter_
        self.found = [tools.with_filter(leaf, tools_, filter_) for leaf, tools_ in zip(frame.leaves, found)]
        self.given = cut.given(self.found)
        self.residuals = cut.residuals(self.found, self.given)
        # a given leaf may need samples past the frame, so the plan then has the dimensions of what is coded
        self.coded = bool(self.given)
        self.name_slots()
        self.is_grid = frame.tile_columns * frame.tile_rows > 1
        self.text = self.file()
        self.planes = frame.planes if self.coded else frame.resized(frame.planes, False)

    def name_slots(self):
        """For each slot in use its name; the spare one; and the list of slots by name."""
        frame = self.frame
        self.names = {}
        for leaf in frame.leaves:
            if leaf.number not in self.given:
                for vector in leaf.vectors():
                    self.names.setdefault(frame.slots[vector[0]], vector[0])
        spare = next((slot for slot in range(8) if slot not in self.names), 0)
        self.spare = next((name for name in range(7) if name not in self.names.values()), None)
        self.slots = [spare] * 7
        for slot, name in self.names.items():
            self.slots[name] = slot
        self.references = {}
        for slot in self.names:
            samples = frame.with_grey(frame.references[slot], False)
            self.references[slot] = frame.resized(samples, True) if self.coded else samples
        if self.given:
            self.references[spare] = self.predicted()

    def predicted(self):
        """The frame's own planes, with what is predicted where the residual of a given leaf is judged."""
        frame = self.frame
        planes, wide, start = bytearray(frame.planes), frame.wide, 0
        for plane in range(1 if frame.mono else 3):
            columns, rows = frame.sides(plane, True)
            half_x, half_y = (frame.half_x, frame.half_y) if plane else (0, 0)
            for block in (b for number in self.residuals for b in frame.leaves[number].blocks if b.plane == plane):
                left, top = 4 * (block.x >> half_x), 4 * (block.y >> half_y)
                width, height = SIZES[block.size]
                count = min(width, columns - left) * wide
                for row in range(min(height, rows - top)):
                    at = start + ((top + row) * columns + left) * wide
                    planes[at:at + count] = block.predicted[row * width * wide:row * width * wide + count]
            start += columns * rows * wide
        return bytes(planes)

    def file(self):
        frame = self.frame
        width, height = frame.sides(0, self.coded)
        out = bytearray(b"RTL2" if self.is_grid else b"RPL3")
        out += struct.pack("<HHBBBB", width, height, frame.depth, frame.layout - 1, self.filter, frame.edge)
        out += bytes(self.slots)
        out.append(sum(1 << slot for slot in self.references))
        for slot in sorted(self.references):
            out += self.references[slot]
        parts = [bytearray() for _ in range(frame.tile_columns * frame.tile_rows)]
        for item in self.cut.items:
            if isinstance(item, Piece):
                parts[frame.tile(item.x, item.y)] += self.leaf(item)
            else:
                parts[frame.tile(*item[:2])].append(item[2])
        if not self.is_grid:
            return bytes(out + parts[0])
        for starts in (frame.column_starts, frame.row_starts):
            out += struct.pack(f"<B{len(starts)}H", len(starts) + 1, *starts)
        for part in parts:
            out += struct.pack("<I", len(part)) + part
        return bytes(out)

    def leaf(self, piece):
        """The fields of a leaf."""
        leaf = piece.leaf
        is_given = leaf.number in self.given
        if is_given and leaf.number not in self.residuals:
            size = SIZES.index((4 * piece.w, 4 * piece.h))
            return (struct.pack("<BBhhBB", ONE, self.spare + 1, 0, 0, size, 0) +
                    (bytes(7) if piece.chroma else bytes(2)))
        luma, chroma = piece.coded(True), piece.coded(False)
        out = bytearray(self.prediction(leaf, piece, is_given))
        out += bytes([luma[0].size, luma[0].type] if luma else [piece.tx, 0])
        if piece.chroma:
            out.append(chroma[0].type if chroma else 0)
        for plane in range(3 if piece.chroma else 1):
            out += self.coefficients(piece, plane)
        return out

    def prediction(self, leaf, piece, is_given):
        if is_given:
            return struct.pack("<BBhh", ONE, self.spare + 1, 0, 0)
        if leaf.kind == INTRA:
            out = struct.pack("Bb", leaf.mode, leaf.angle)
            if not piece.chroma:
                return out
            if leaf.uv_mode == FROM_LUMA:
                return out + struct.pack("Bbb", leaf.uv_mode, leaf.cfl_u, leaf.cfl_v)
            return out + struct.pack("Bb", leaf.uv_mode, leaf.uv_angle)
        vectors = leaf.vectors()
        return bytes([ONE if len(vectors) == 1 else TWO]) + b"".join(
            struct.pack("<Bhh", self.names[self.frame.slots[name]] + 1, row, column) for name, row, column in vectors)

    def coefficients(self, piece, plane):
        left, top, columns, _ = self.frame.rectangle(piece, plane)
        half_x, half_y = (self.frame.half_x, self.frame.half_y) if plane else (0, 0)
        triples = []
        for block in (block for block in piece.blocks if block.plane == plane):
            width, height = SIZES[block.size]
            row, column = (4 * (block.y >> half_y) - top) // height, (4 * (block.x >> half_x) - left) // width
            number = row * (columns // width) + column
            triples += [(number, *coefficient) for coefficient in block.coefficients]
        return struct.pack("<H", len(triples)) + b"".join(struct.pack("<BHi", *triple) for triple in sorted(triples))

    def level(self, leaf):
        """How this plan judges a leaf."""
        if leaf.number not in self.given:
            return WHOLE
        return RESIDUAL if leaf.number in self.residuals and leaf.blocks else GIVEN


def lacks(frame):
    """For each leaf what plans lack; also sets leaf.filters."""
    for leaf in frame.leaves:
        leaf.filters = tools.filters(frame, leaf) if leaf.kind == INTER else set()
    return [tools.of_leaf(frame, leaf) for leaf in frame.leaves]


def plans(frame, found):
    """A plan for each interpolation filter that blocks have, the most common first, and the best level of each leaf."""
    cut = Cut(frame)
    uses = {filter_: sum(filter_ in leaf.filters for leaf in frame.leaves) for filter_ in range(4)}
    out, levels, order = [], [GIVEN] * len(frame.leaves), [WHOLE, RESIDUAL, GIVEN]
    for filter_ in sorted(range(4), key=lambda f: (-uses[f], f != frame.filter, f)):
        if out and not any(levels[leaf.number] != WHOLE and filter_ in leaf.filters and not found[leaf.number] - tools.NODES
                           for leaf in frame.leaves):
            continue
        plan = Plan(frame, cut, found, filter_)
        out.append(plan)
        levels = [min(level, plan.level(leaf), key=order.index) for level, leaf in zip(levels, frame.leaves)]
    return out, levels
