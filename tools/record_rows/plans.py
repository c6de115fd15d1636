"""Plans and files of tools, put together from their fields, and the worked ones that rows begin from.

docs/PLAN_FORMAT.md has the fields of plans, docs/COMMANDS.md names the files of tools.
"""
import pathlib
import struct
import sys

sys.path.append(str(pathlib.Path(__file__).resolve().parent.parent.parent / "bindings/python"))
from tilgwaren import Chroma, Leaf, Plan
from tilgwaren.fields import FILTERS, MODES, REFERENCES, SAMPLINGS, TX_SIZES, TX_TYPES


def header(width=8, height=8, depth=8, sampling=2, filter=0, edge_filter=0, slots=(0,) * 7, mask=0, magic=b"RPL1"):
    """A header by the numbers of its fields, with any magic and any mask."""
    return magic + Plan(width, height, depth, SAMPLINGS[sampling], FILTERS[filter], edge_filter, slots).header()[4:-1] + bytes([mask])


def leaf(mode=0, step=0, chroma=(0, 0), weights=None, tx_size=0, tx_type=0, uv_type=0, y=(), u=(), v=(), carried=True, vectors=()):
    """A leaf by the numbers of its fields: with `vectors` from references (reference, row, column of each), without `carried` without chroma."""
    chroma_mode, chroma_step = ("CFL", 0) if weights else (MODES[chroma[0]], chroma[1])
    carries = Chroma(TX_TYPES[uv_type], chroma_mode, chroma_step, weights, u, v) if carried else None
    moved = [(REFERENCES[number - 1], row, column) for number, row, column in vectors]
    return bytes(Leaf(0, 0, 0, 0, MODES[mode], step, moved, TX_SIZES[tx_size], TX_TYPES[tx_type], y, carries))


def changed(data, *changes):
    """The same bytes but for these places and their values."""
    data = bytearray(data)
    for place, value in changes:
        data[place] = value
    return bytes(data)


def planes(*values, count=64):
    """Planes of so many samples, each plane of one value."""
    return b"".join(bytes([value]) * count for value in values)


# ---- files of tools


def part(data):
    return struct.pack("<I", len(data)) + data


def tiles(parts, width=128, height=8, columns=(64,), rows=(), references=b"", magic=b"RTL1", **more):
    """A grid of tiles, whose columns and rows begin at 0 and at these."""
    grid = Plan(width, height, superblocks=[[part] for part in parts], columns=columns, rows=rows)
    return header(width, height, magic=magic, **more) + references + bytes(grid)[len(grid.header()):]


def entry(refresh, leaves, slots=(0,) * 7):
    """A frame of a sequence: which slots it replaces, its leaves, and the slots that its references name."""
    return bytes([0, 0, *slots, refresh]) + part(leaves)


def sequence(frames, width=8, height=8, depth=8, sampling=2, count=None):
    file = b"RSQ1" + struct.pack("<HHBBH", width, height, depth, sampling, len(frames) if count is None else count)
    return file + b"".join(entry(*it) for it in frames)


# The kinds of entries.
HIDDEN, SHOWN, AGAIN = range(3)


def shown_sequence(entries, *sides, count=None, **more):
    """A sequence of the second version: of each entry its kind, and what `entry` has of a frame, or a slot and which slots then hold its frame too."""
    file = b"RSQ2" + sequence([], *sides, count=len(entries) if count is None else count, **more)[4:]
    return file + b"".join(bytes([kind]) + (bytes(fields) if kind == AGAIN else entry(*fields)) for kind, *fields in entries)


# ---- worked plans

DOWN_TO_4 = b"\3\3\3\3"
# 8x8 in 4:4:4 in four leaves of 4x4, of which the first has one coefficient; the same without it.
PLAN = header() + DOWN_TO_4 + leaf(y=[(0, 0, 100)]) + 3 * leaf()
PLAIN = header() + DOWN_TO_4 + 4 * leaf()
# The first from the left, a coefficient in the second, the third at 45 degrees.
LIFTED = header() + DOWN_TO_4 + leaf(mode=2) + leaf(y=[(0, 0, 100)]) + leaf(mode=3) + leaf()
# One leaf of 64x64 in 4:2:0, in 4:4:4, and of a frame of 16x8.
HALVED = header(sampling=0) + b"\0" + leaf(tx_size=4)
FLAT = header() + b"\0" + leaf()
WIDE = header(16) + b"\0" + leaf(tx_size=1, y=[(1, 0, 100)])
# The upper half of a node of side 16, whose lower half lies outside the frame.
ONE_HALF = header(16, depth=10) + b"\3\3\1" + leaf(mode=2, tx_size=8, tx_type=1)
# Nodes in four quarters.
QUARTERS = header(64, 64, magic=b"RPL2") + b"\x08" + 4 * leaf(tx_size=18)
HALVED_QUARTERS = (header(16, 16, sampling=0, magic=b"RPL2") + b"\3\3\x08" + leaf(mode=1, tx_size=14, carried=False) + leaf(tx_size=14)
                   + leaf(tx_size=14, carried=False) + leaf(tx_size=14))
SMALL_QUARTERS = header(magic=b"RPL2") + b"\3\3\3\x08"
# Leaves from references: of a plan whose slot 0 rises along rows, and of one with two slots.
REFERRING = header(slots=(0, 1, 0, 0, 0, 0, 0))
RISING = 8 * bytes(range(0, 80, 10))
SINGLE = b"\0" + leaf(mode=19, vectors=[(1, 0, 8)], tx_size=4)
MOVED = changed(REFERRING, (19, 1)) + RISING + planes(128, 128) + SINGLE


def of_two(row):
    """A plan of slots of 10 and of 21, and a leaf from both by a first vector of this row."""
    leaf_of_two = leaf(mode=33, vectors=[(1, row, 0), (2, 0, 0)], tx_size=4)
    return changed(REFERRING, (19, 3)) + planes(10, 10, 10) + planes(21, 21, 21) + b"\0" + leaf_of_two


# Frames whose sides are no multiples of 8: of one sample, of 9x9 and 65x1, and of 9x8 from a slot that rises along rows.
ONE_SAMPLE = header(1, 1, sampling=0, magic=b"RPL3") + b"\0" + leaf(tx_size=4)
NINE_BY_NINE = header(9, 9, sampling=0, magic=b"RPL3") + b"\3\3\0" + leaf(tx_size=2)
ONE_ROW = header(65, 1, sampling=1, depth=10, magic=b"RPL3") + 2 * (b"\1" + leaf(tx_size=12))
NINE_FRONT = header(9, 8, mask=1, magic=b"RPL3") + 8 * bytes(range(0, 90, 10)) + planes(128, 128, count=72)


def moved(row, col, mode=19):
    """The frame of 9x8 in one leaf, moved by this vector."""
    return NINE_FRONT + b"\0" + leaf(mode=mode, vectors=[(1, row, col)], tx_size=4)


# A frame of 8x8 in four leaves of 4x4, whose chroma in slot 0 rises by 16 along rows and by 1 down columns; and vectors that lead far apart.
APART = ((0, 16), (16, 0), (0, -16), (-16, 0))


def sloping(depth=8, filter=0, **more):
    """The front of that frame in 4:2:0."""
    samples = [0] * 64 + 2 * [16 * column + row for row in range(4) for column in range(4)]
    front = header(depth=depth, sampling=0, filter=filter, mask=1, **{"magic": b"RPL3", **more})
    return front + b"".join(it.to_bytes(1 if depth == 8 else 2, "little") for it in samples)


def parts(vectors, mark=3, sides=(4, 4)):
    """Leaves with a side of 4 in a node of 8: each from a reference, by its vector (two vectors are of two references), or intra where it has none. Of
    leaves that share chroma the last one carries it."""
    node = b"\3\3\3" + bytes([mark])
    for at, vector in enumerate(vectors):
        them = [] if vector is None else [(1, *vector)] if len(vector) == 2 else [(1, *vector[:2]), (1, *vector[2:])]
        node += leaf(mode=(0, 19, 33)[len(them)], vectors=them, carried=at + 1 == len(vectors), tx_size={(4, 4): 0, (4, 8): 5, (8, 4): 6}[sides])
    return node


# Ten leaves of 16x16 in 4:2:0 with all directions but two beside smooth neighbours; and chroma from luma in 4:2:0 and 4:2:2.
DIRECTIONAL = bytes.fromhex(
    "52504c31100010000800000102030505010206000303030103fd060d000008fe04fe0605020400000d00ffffffff00100023ffffff001800c4ffffff"
    "001e009effffff030000030090010000000b0090010000000f0099ffffff0000010900060c000002fd0d0efe0004070000000000000301ff000d0000"
    "0402000c0000010300020000070307ff0010030000020000030000000000000800fcffffff010000010070feffff010301000f0300010100feffffff"
    "01050070feffff010a003500000003030c0000100700000000040000000008000000000300b9ffffff00060090010000000800fbffffff")
FROM_LUMA_420 = bytes.fromhex(
    "52504c310800080008000100000707030400040003030008010df0f3060c020400000500fbfeffff00130052010000001c000f000000001d000cfeff"
    "ff0200001b00f4010000003f0031010000040000010025000000000a00f4010000001f007f000000003000ffffffff")
FROM_LUMA_422 = bytes.fromhex(
    "52504c3108000800080103000304010307040400030005030dfaf5060b090600000600ffffffff0007000cfeffff001d00beffffff001f00b4010000"
    "0413000e000000041f001f00000006000054008efeffff005500f401000000aa0039feffff00ce00f9ffffff006801aeffffff00be01000000000000")
