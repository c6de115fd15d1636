"""The fields of a plan, by their names in the AV1 specification, read from bytes and written back.

docs/PLAN_FORMAT.md has each field's bytes and values. Reading checks the format (every number is one
that the format has) and not validity, which is what a plan may say of a frame: the library checks it.
"""
import dataclasses
import struct
from typing import NamedTuple

INTRA_MODES = "DC V H D45 D135 D113 D157 D203 D67 SMOOTH SMOOTH_V SMOOTH_H PAETH CFL".split()
INTER_MODES = ("NEARESTMV NEAR0MV NEAR1MV NEAR2MV GLOBALMV NEWMV "
               "NEAREST_NEARESTMV NEAR_NEAR0MV NEAR_NEAR1MV NEAR_NEAR2MV NEAREST_NEWMV NEW_NEARESTMV "
               "NEAR_NEW0MV NEAR_NEW1MV NEAR_NEW2MV NEW_NEAR0MV NEW_NEAR1MV NEW_NEAR2MV "
               "GLOBAL_GLOBALMV NEW_NEWMV").split()
MODES = INTRA_MODES + INTER_MODES
FIRST_COMPOUND = MODES.index("NEAREST_NEARESTMV")
TX_SIZES = [(4, 4), (8, 8), (16, 16), (32, 32), (64, 64), (4, 8), (8, 4), (8, 16), (16, 8), (16, 32), (32, 16), (32, 64),
            (64, 32), (4, 16), (16, 4), (8, 32), (32, 8), (16, 64), (64, 16)]
TX_TYPES = ("DCT_DCT ADST_DCT DCT_ADST ADST_ADST FLIPADST_DCT DCT_FLIPADST FLIPADST_FLIPADST ADST_FLIPADST FLIPADST_ADST "
            "IDTX V_DCT H_DCT V_ADST H_ADST V_FLIPADST H_FLIPADST WHT_WHT").split()
REFERENCES = "LAST LAST2 LAST3 GOLDEN BWDREF ALTREF2 ALTREF".split()
PARTITIONS = {"NONE": 0, "HORZ": 1, "VERT": 2, "SPLIT": 3, "HORZ_4": 8, "VERT_4": 9}
SAMPLINGS = ["4:2:0", "4:2:2", "4:4:4"]
FILTERS = ["regular", "smooth", "sharp", "bilinear"]


class FormatError(ValueError):
    """Bytes that are not a plan: `at` is the offset of the first bad field."""

    def __init__(self, at):
        super().__init__(f"malformed at {at}")
        self.at = at


class Reader:
    """Takes fields from bytes, in order."""

    def __init__(self, data, at=0, end=None):
        self.data, self.at, self.end = data, at, len(data) if end is None else end

    def take(self, form):
        """The values of a little-endian form of `struct`."""
        size = struct.calcsize("<" + form)
        if self.at + size > self.end:
            raise FormatError(self.at)
        values = struct.unpack_from("<" + form, self.data, self.at)
        self.at += size
        return values

    def one(self, form):
        return self.take(form)[0]

    def number(self, form, allowed):
        """A number that `allowed` contains."""
        at, number = self.at, self.one(form)
        if number not in allowed:
            raise FormatError(at)
        return number

    def name(self, names):
        """The name of a number of one byte."""
        return names[self.number("B", range(len(names)))]


class Coefficient(NamedTuple):
    """A coefficient: its transform block within the leaf, its place in that block's list, its value."""
    block: int
    place: int
    value: int


class Vector(NamedTuple):
    """A motion vector, in eighths of a luma sample, down and right, and the reference that it leads into."""
    reference: str
    row: int
    column: int


@dataclasses.dataclass
class Chroma:
    """What a leaf says of its chroma: for an intra leaf its mode, with steps of 3 degrees or the weights of CFL."""
    tx_type: str = "DCT_DCT"
    mode: str | None = None
    angle_step: int = 0
    weights: tuple | None = None
    u: list = dataclasses.field(default_factory=list)
    v: list = dataclasses.field(default_factory=list)


@dataclasses.dataclass
class Leaf:
    """A block: its place and dimensions in luma samples, its mode, its transforms and its coefficients."""
    x: int
    y: int
    width: int
    height: int
    mode: str = "DC"
    angle_step: int = 0
    vectors: list = dataclasses.field(default_factory=list)
    tx_size: tuple = (4, 4)
    tx_type: str = "DCT_DCT"
    coefficients: list = dataclasses.field(default_factory=list)
    chroma: Chroma | None = None

    def is_intra(self):
        return self.mode in INTRA_MODES

    def carries_chroma(self, halved):
        """Whether the plan has the leaf's chroma: of leaves that share chroma only the last one does. `halved`
        says for columns and for rows whether chroma has half of them."""
        across = halved[0] and self.width == 4 and self.x // 4 % 2 == 0
        down = halved[1] and self.height == 4 and self.y // 4 % 2 == 0
        return not (across or down)

    def coefficient_lists(self):
        """The coefficients of Y, and if the leaf carries chroma, those of U and of V."""
        return [self.coefficients, self.chroma.u, self.chroma.v] if self.chroma else [self.coefficients]

    @classmethod
    def read(cls, reader, place, halved):
        leaf = cls(*place)
        leaf.mode = reader.name(MODES)
        if leaf.carries_chroma(halved):
            leaf.chroma = Chroma()
        if leaf.is_intra():
            leaf.angle_step = reader.one("b")
            if leaf.chroma:
                read_chroma_mode(reader, leaf.chroma)
        else:
            for _ in range(1 + (MODES.index(leaf.mode) >= FIRST_COMPOUND)):
                leaf.vectors.append(read_vector(reader))
        leaf.tx_size, leaf.tx_type = reader.name(TX_SIZES), reader.name(TX_TYPES)
        if leaf.chroma:
            leaf.chroma.tx_type = reader.name(TX_TYPES)
        leaf.coefficients = read_coefficients(reader)
        if leaf.chroma:
            leaf.chroma.u, leaf.chroma.v = read_coefficients(reader), read_coefficients(reader)
        return leaf

    def __bytes__(self):
        out = bytes([MODES.index(self.mode)])
        if self.is_intra():
            out += struct.pack("<b", self.angle_step) + (chroma_mode_bytes(self.chroma) if self.chroma else b"")
        for name, row, column in self.vectors:
            out += struct.pack("<Bhh", 1 + REFERENCES.index(name), row, column)
        out += bytes([TX_SIZES.index(tuple(self.tx_size)), TX_TYPES.index(self.tx_type)])
        if self.chroma:
            out += bytes([TX_TYPES.index(self.chroma.tx_type)])
        return out + b"".join(map(coefficient_bytes, self.coefficient_lists()))


@dataclasses.dataclass
class Node:
    """A square of 8 to 64 luma samples: its partition, and the parts that begin inside the frame, in coding order."""
    partition: str
    parts: list

    def nodes(self):
        """The node, and all nodes in it."""
        yield self
        for part in self.parts:
            if isinstance(part, Node):
                yield from part.nodes()

    def leaves(self):
        """The leaves in the node, in coding order."""
        return (part for node in self.nodes() for part in node.parts if isinstance(part, Leaf))

    @classmethod
    def read(cls, reader, x, y, side, frame):
        """The node at this place. `frame` has the coded width and height, and which dimensions of chroma are halved."""
        number = reader.number("B", frame.marks(x, y, side))
        partition = next(name for name, mark in PARTITIONS.items() if mark == number)
        node = cls(partition, [])
        for left, top, width, height in places(partition, x, y, side):
            if left < frame.coded_width and top < frame.coded_height:
                is_node = partition == "SPLIT" and side > 8
                node.parts.append(cls.read(reader, left, top, width, frame) if is_node
                                  else Leaf.read(reader, (left, top, width, height), frame.halved))
        return node

    def __bytes__(self):
        return bytes([PARTITIONS[self.partition]]) + b"".join(map(bytes, self.parts))


def places(partition, x, y, side):
    """Column, row, width and height of each part of a node, in coding order."""
    across, down = {"NONE": (1, 1), "HORZ": (1, 2), "VERT": (2, 1), "SPLIT": (2, 2), "HORZ_4": (1, 4), "VERT_4": (4, 1)}[partition]
    width, height = side // across, side // down
    return [(x + column * width, y + row * height, width, height) for row in range(down) for column in range(across)]


def read_vector(reader):
    number = reader.number("B", range(1, 1 + len(REFERENCES)))
    return Vector(REFERENCES[number - 1], reader.one("h"), reader.one("h"))


def read_chroma_mode(reader, chroma):
    chroma.mode = reader.name(INTRA_MODES)
    if chroma.mode == "CFL":
        chroma.weights = reader.one("b"), reader.one("b")
    else:
        chroma.angle_step = reader.one("b")


def chroma_mode_bytes(chroma):
    mode = bytes([INTRA_MODES.index(chroma.mode)])
    return mode + (struct.pack("<bb", *chroma.weights) if chroma.weights else struct.pack("<b", chroma.angle_step))


def read_coefficients(reader):
    count = reader.one("H")
    if reader.at + 7 * count <= reader.end:
        return list(map(Coefficient._make, struct.iter_unpack("<BHi", *reader.take(f"{7 * count}s"))))
    return [Coefficient(reader.one("B"), reader.one("H"), reader.one("i")) for _ in range(count)]  # FormatError at the first field that is cut


def coefficient_bytes(coefficients):
    return struct.pack("<H", len(coefficients)) + b"".join(struct.pack("<BHi", *it) for it in coefficients)
