"""Draws lossless key frames: partitions, modes and coefficients, and writes them as plans of version 3."""
import dataclasses
import random

import tilgwaren
from tilgwaren import Chroma, Coefficient, Node
from tilgwaren.fields import INTRA_MODES, PARTITIONS, SAMPLINGS, places

DEPTHS = (8, 10, 12)
KINDS = ("few", "coded", "far", "farther", "any")
# Marks of nodes of 8 whose leaves have chroma of 4x4, by sampling, the last of monochrome frames; and the partition of each mark.
MARKS_OF_8 = ((0, 1, 2, 3), (1, 3), (3,), (0, 1, 2, 3))
MARKS = {mark: name for name, mark in PARTITIONS.items()}
DIRECTIONS = INTRA_MODES[1:9]


@dataclasses.dataclass
class Leaf(tilgwaren.Leaf):
    """A leaf. `levels` has the quantized coefficients of each plane, for each of its 4x4 blocks in raster order, column by
    column; None for a block outside what is coded."""
    skipped: bool = False
    levels: tuple = ()

    def has_steps(self):
        """Whether directions have steps: they have in leaves from 8x8 on."""
        return self.width + self.height > 12


@dataclasses.dataclass
class Frame(tilgwaren.Plan):
    """A frame. A monochrome one is a plan in 4:2:0."""
    seed: int = 0
    kind: str = "any"
    is_monochrome: bool = False

    def is_coded(self, x, y):
        """Whether this position is in the coded frame."""
        return x < self.coded_width and y < self.coded_height


# ---- levels: what a bitstream has of coefficients, which a lossless frame multiplies by 4


def undo_walsh(a, b, c, d):
    """What the inverse Walsh-Hadamard transform makes these values of."""
    e = a + b - d + c >> 1
    return a + b - e + c, e - c, d - c + e - b, e - b


def levels_of(residual):
    """The levels, column by column, of which the inverse transform makes these rows of a residual."""
    columns = [undo_walsh(*column) for column in zip(*residual)]
    rows = [undo_walsh(*row) for row in zip(*columns)]
    return [rows[r][c] for c in range(4) for r in range(4)]


def residual_value(draw, bound, share):
    """A value of a residual: a share of them are small, the others up to the bound or at it."""
    if draw.random() < share:
        return draw.randint(-16, 16)
    most = bound >> draw.randrange(bound.bit_length())
    return draw.choice((-bound, bound, draw.randint(-most, most)))


def draw_levels(draw, depth, kind):
    """The levels of a block of this kind: lossless.py says what the kinds are. Up to the limit they fit in depth + 8 bits
    as coefficients, and past it decoders clip them."""
    limit = 1 << depth + 5
    if kind == "few":
        levels = [0] * 16
        for _ in range(draw.randint(1, 4)):
            levels[draw.randrange(16)] = draw.randint(-20, 20)
        return levels
    if kind == "any":
        values = lambda: (draw.randint(-limit, limit), draw.choice((-limit, limit, limit - 1)), draw.randint(-9, 9), 2 * limit, 0)
        return [draw.choice(values()) for _ in range(16)]
    bound = {"coded": (1 << depth) - 1, "far": (1 << 15) - (1 << depth), "farther": 1 << depth + 7}[kind]
    while True:
        share = draw.choice((0.2, 0.5, 0.9))
        levels = levels_of([[residual_value(draw, bound, share) for _ in range(4)] for _ in range(4)])
        if max(map(abs, levels)) < limit:
            return levels
        bound -= bound >> 4


# ---- drawing


class Drawing:
    """Draws one frame from its seed alone."""

    def __init__(self, seed, most):
        self.draw = random.Random(f"lossless {seed}")
        self.sampling = seed // 3 % 4
        width, height = (self.draw.randint(1, self.draw.choice((min(8, most), most))) for _ in range(2))
        self.frame = Frame(width, height, DEPTHS[seed % 3], SAMPLINGS[self.sampling % 3], edge_filter=self.draw.randrange(2), seed=seed,
                           kind=KINDS[seed // 12 % 5], is_monochrome=self.sampling == 3)
        self.frame.superblocks = [[self.node(x, y, 64) for y in range(0, height, 64) for x in range(0, width, 64)]]

    def marks(self, x, y, side):
        """The marks that a bitstream can code for a node, and whose leaves plans can say as lossless ones."""
        marks = set(MARKS if self.frame.is_monochrome and side > 8 else MARKS_OF_8[self.sampling] if side == 8 else (3,))
        marks &= set(self.frame.marks(x, y, side))
        if y + side // 2 >= self.frame.coded_height:
            marks &= {1, 3}
        if x + side // 2 >= self.frame.coded_width:
            marks &= {2, 3}
        return sorted(marks)

    def node(self, x, y, side):
        partition = MARKS[self.draw.choice(self.marks(x, y, side))]
        parts = [it for it in places(partition, x, y, side) if self.frame.is_coded(*it[:2])]
        is_split = partition == "SPLIT" and side > 8
        return Node(partition, [self.node(*it[:3]) if is_split else self.leaf(*it) for it in parts])

    def leaf(self, *place):
        draw = self.draw
        it = Leaf(*place, INTRA_MODES[draw.choice((0, draw.randrange(13)))], tx_type="WHT_WHT", skipped=draw.random() < 0.1)
        it.angle_step = self.step(it, it.mode)
        has_levels = it.carries_chroma(self.frame.halved) and not self.frame.is_monochrome
        if has_levels:
            it.chroma = Chroma("WHT_WHT", INTRA_MODES[draw.choice((0, draw.randrange(14), 13))])
            it.chroma.angle_step = self.step(it, it.chroma.mode)
            weights = draw.choice(((draw.randint(-16, 16), draw.randint(1, 16)), (draw.randint(1, 16), 0), (-16, 16)))
            it.chroma.weights = weights if it.chroma.mode == "CFL" else None
        elif it.carries_chroma(self.frame.halved):
            it.chroma = Chroma(mode="DC")
        it.levels = (self.luma(it), *((self.block(it),) if has_levels else () for _ in range(2)))
        for coefficients, blocks in zip(it.coefficient_lists(), it.levels):
            coefficients += coefficients_of(blocks, self.frame.depth)
        return it

    def step(self, leaf, mode):
        return self.draw.randint(-3, 3) if mode in DIRECTIONS and leaf.has_steps() else 0

    def luma(self, leaf):
        corners = [(x, y) for y in range(leaf.y, leaf.y + leaf.height, 4) for x in range(leaf.x, leaf.x + leaf.width, 4)]
        return [self.block(leaf) if self.frame.is_coded(*it) else None for it in corners]

    def block(self, leaf):
        if leaf.skipped or self.draw.random() < 0.2:
            return [0] * 16
        return draw_levels(self.draw, self.frame.depth, self.frame.kind)


def coefficients_of(blocks, depth):
    """The coefficients of blocks of levels, as decoders clip them."""
    most = 1 << depth + 7
    return [Coefficient(number, place, max(-most, min(most - 1, 4 * level)))
            for number, levels in enumerate(blocks) for place, level in enumerate(levels or ()) if level]
