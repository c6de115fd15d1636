"""Plans and grids of tiles (docs/PLAN_FORMAT.md): their bytes, their fields, and both as JSON."""
import base64
import dataclasses
import json
import struct

from .fields import FILTERS, SAMPLINGS, Chroma, Coefficient, FormatError, Leaf, Node, Reader, Vector
from .planes import Planes

SUPERBLOCK = 64


@dataclasses.dataclass
class Plan:
    """A frame's decisions. `version` is that of the plan format, 1 to 3. `superblocks` has for each tile its nodes of side 64,
    row by row; a frame that isn't cut into tiles has one. `columns` and `rows` are where tiles begin after the first."""
    width: int
    height: int
    depth: int = 8
    sampling: str = "4:2:0"
    filter: str = "regular"
    edge_filter: bool = False
    slots: tuple = (0,) * 7
    version: int = 3
    references: dict = dataclasses.field(default_factory=dict)
    superblocks: list = dataclasses.field(default_factory=list)
    columns: tuple | None = None
    rows: tuple | None = None

    @property
    def halved(self):
        """Whether chroma has half of luma's columns, and half of its rows."""
        return self.sampling != "4:4:4", self.sampling == "4:2:0"

    @property
    def coded_width(self):
        return (self.width + 7) // 8 * 8

    @property
    def coded_height(self):
        return (self.height + 7) // 8 * 8

    @property
    def is_grid(self):
        return self.columns is not None

    def dimensions(self):
        """Width and height of Y, U and V, in samples; half of an odd number is rounded up."""
        across, down = self.halved
        small = (self.width + across) >> across, (self.height + down) >> down
        return [(self.width, self.height), small, small]

    def planes_length(self):
        """How many bytes the planes have."""
        return (1 if self.depth == 8 else 2) * sum(width * height for width, height in self.dimensions())

    def position(self, sample):
        """Plane, row and column of a sample, by its number in the planes from 0."""
        for plane, (width, height) in enumerate(self.dimensions()):
            if sample < width * height:
                return plane, *divmod(sample, width)
            sample -= width * height
        raise ValueError("the planes have fewer samples")

    def marks(self, x, y, side):
        """The partition marks that a node at this place may have."""
        is_inside = x + side <= self.coded_width and y + side <= self.coded_height
        return range(4) if side == 8 or self.version == 1 or not is_inside else (*range(4), 8, 9)

    def nodes(self):
        """The nodes in coding order, tile by tile; each comes before its parts."""
        for superblocks in self.superblocks:
            for node in superblocks:
                yield from node.nodes()

    def leaves(self):
        """The leaves in coding order, tile by tile."""
        return (part for node in self.nodes() for part in node.parts if isinstance(part, Leaf))

    def chroma_groups(self):
        """The leaves in lists: each list has the leaves that share a chroma block, and its last leaf carries the block."""
        group = []
        for leaf in self.leaves():
            group.append(leaf)
            if leaf.chroma:
                yield group
                group = []

    def rectangles(self):
        """The rectangle of each tile in coded luma samples, row by row: its first column and row, and where it ends."""
        across = [0, *(self.columns or ()), self.coded_width]
        down = [0, *(self.rows or ()), self.coded_height]
        return [(left, top, right, bottom) for top, bottom in zip(down, down[1:]) for left, right in zip(across, across[1:])]

    @classmethod
    def read(cls, data):
        """The plan or the grid of these bytes. Raises FormatError, which has the offset of the first bad field."""
        reader = Reader(data)
        plan = read_header(reader)
        for slot in (slot for slot in range(8) if reader.mask >> slot & 1):
            plan.references[slot] = read_planes(reader, plan)
        if plan.is_grid:
            plan.columns, plan.rows = read_starts(reader, plan.width), read_starts(reader, plan.height)
        for rectangle in plan.rectangles():
            plan.superblocks.append(plan.read_tile(reader, rectangle))
        if reader.at != len(data):
            raise FormatError(reader.at)
        return plan

    def read_tile(self, reader, rectangle):
        """The superblocks of a tile; in a grid their length comes first."""
        if not self.is_grid:
            return self.read_superblocks(reader, rectangle)
        length = reader.one("I")
        if reader.at + length > reader.end:
            raise FormatError(reader.at)
        part = Reader(reader.data, reader.at, reader.at + length)
        nodes = self.read_superblocks(part, rectangle)
        if part.at != part.end:
            raise FormatError(part.at)
        reader.at = part.end
        return nodes

    def read_superblocks(self, reader, rectangle):
        left, top, right, bottom = rectangle
        frame = dataclasses.replace(self, width=right, height=bottom, references={}, superblocks=[])
        return [Node.read(reader, x, y, SUPERBLOCK, frame)
                for y in range(top, bottom, SUPERBLOCK) for x in range(left, right, SUPERBLOCK)]

    def header(self):
        """The bytes before the references: from the magic to the mask."""
        magic = b"RTL%d" % (self.version - 1) if self.is_grid else b"RPL%d" % self.version
        return magic + struct.pack("<HHBBBB7sB", self.width, self.height, self.depth, SAMPLINGS.index(self.sampling),
                                   FILTERS.index(self.filter), self.edge_filter, bytes(self.slots), sum(1 << slot for slot in self.references))

    def parts(self):
        """The bytes of each tile's marks and leaves."""
        return [b"".join(map(bytes, nodes)) for nodes in self.superblocks]

    def __bytes__(self):
        out = self.header() + b"".join(bytes(self.references[slot]) for slot in sorted(self.references))
        if not self.is_grid:
            return out + self.parts()[0]
        for starts in (self.columns, self.rows):
            out += struct.pack(f"<B{len(starts)}H", len(starts) + 1, *starts)
        return out + b"".join(struct.pack("<I", len(part)) + part for part in self.parts())

    def to_json(self, **options):
        """The plan as JSON, by the field's names; samples of references are in base64. `options` go to json.dumps."""
        fields = dataclasses.asdict(dataclasses.replace(self, references={}))
        fields["references"] = {slot: base64.b64encode(bytes(planes)).decode() for slot, planes in self.references.items()}
        return json.dumps(fields, **options)

    @classmethod
    def from_json(cls, text):
        """The plan that `to_json` wrote."""
        fields = json.loads(text)
        plan = cls(**{**fields, "references": {}, "superblocks": []})
        for slot, samples in fields["references"].items():
            plan.references[int(slot)] = Planes.read(base64.b64decode(samples), plan.dimensions(), plan.depth)
        plan.superblocks = [[part_of(node) for node in nodes] for nodes in fields["superblocks"]]
        return plan


def read_header(reader):
    """The header, as a plan without leaves; the reader then has the mask."""
    magic, = reader.take("4s")
    if magic not in (b"RPL1", b"RPL2", b"RPL3", b"RTL1", b"RTL2"):
        raise FormatError(0)
    is_grid = magic[:3] == b"RTL"
    version = magic[3] - ord("0") + is_grid
    dimensions = range(1, 2049) if version == 3 else range(8, 2049, 8)
    plan = Plan(reader.number("H", dimensions), reader.number("H", dimensions), reader.number("B", (8, 10, 12)),
                reader.name(SAMPLINGS), reader.name(FILTERS), reader.name([False, True]),
                tuple(reader.number("B", range(8)) for _ in range(7)), version)
    reader.mask = reader.one("B")
    if is_grid:
        plan.columns = plan.rows = ()
    return plan


def read_planes(reader, plan):
    """The planes of a reference. A sample past the depth is a bad field."""
    start = reader.at
    length = min(plan.planes_length(), reader.end - start)
    size = 1 if plan.depth == 8 else 2
    samples, = reader.take(f"{length}s")
    if size == 2 and max(samples[1::2], default=0) >> plan.depth - 8:
        raise FormatError(start + 2 * next(sample for sample, byte in enumerate(samples[1::2]) if byte >> plan.depth - 8))
    if length < plan.planes_length():
        raise FormatError(start + length // size * size)
    return Planes.read(samples, plan.dimensions(), plan.depth)


def read_starts(reader, side):
    """Where the columns or the rows of tiles begin after the first, in luma samples."""
    starts = [0]
    for _ in range(reader.number("B", range(1, 33)) - 1):
        starts.append(reader.number("H", range(starts[-1] + SUPERBLOCK, side, SUPERBLOCK)))
    return starts[1:]


def part_of(fields):
    """A node or a leaf of its JSON."""
    if "partition" in fields:
        return Node(fields["partition"], [part_of(part) for part in fields["parts"]])
    leaf = Leaf(**fields)
    leaf.vectors = [Vector(*vector) for vector in leaf.vectors]
    leaf.coefficients = [Coefficient(*it) for it in leaf.coefficients]
    if leaf.chroma:
        leaf.chroma = Chroma(**leaf.chroma)
        leaf.chroma.u, leaf.chroma.v = ([Coefficient(*it) for it in plane] for plane in (leaf.chroma.u, leaf.chroma.v))
    return leaf


def trace(plan, planes):
    """A trace: a plan, by its bytes, with the planes that an encoder left for it."""
    data = bytes(plan)
    return b"RTR1" + struct.pack("<I", len(data)) + data + bytes(planes)
