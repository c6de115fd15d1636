"""Sequences of frames and grids of tiles: the plan of each of their parts, and files to look at."""
import random
import struct

from plans import Plan, great, halves, odd

FRONT = 20


def plane_bytes(width, height, depth, sampling):
    """How many bytes the planes of a frame have."""
    return (1 if depth == 8 else 2) * sum(w * h for w, h in halves(width, height, sampling))


# ---- sequences


class Frame:
    """An entry of a sequence: which frame each slot holds before its frame, none as -1; which slots it replaces; the plan of its frame; the number of
    that, which is its own, or the one that it shows again; and whether it is shown."""

    def __init__(self, held, refresh, plan, shows, shown):
        self.held, self.refresh, self.plan, self.shows, self.shown = held, refresh, plan, shows, shown


def frames_of(data, planes_of):
    """The entries of a sequence, in turn. `planes_of` gives the planes of a frame before by its number, or of the last one by its plan."""
    letters, count = data[:4], struct.unpack_from("<H", data, 10)[0]
    at, held, frames = 12, [-1] * 8, []
    for number in range(count):
        kind = data[at] if letters == b"RSQ2" else 1
        at += letters == b"RSQ2"
        if kind == 2:
            first = frames[held[data[at]]]
            made = Frame(first.held, data[at + 1], first.plan, first.shows, True)
            at += 2
        else:
            settings, slots, refresh, (length,) = data[at:at + 2], data[at + 2:at + 9], data[at + 9], struct.unpack_from("<I", data, at + 10)
            read = sorted({slot for slot in slots if held[slot] >= 0})
            front = (b"RPL3" if letters == b"RSQ2" else b"RPL2") + data[4:10] + settings + slots + bytes([sum(1 << slot for slot in read)])
            plan = front + b"".join(planes_of(held[slot]) for slot in read) + data[at + 14:at + 14 + length]
            made = Frame(list(held), refresh, plan, number, kind == 1)
            at += 14 + length
        frames.append(made)
        yield made
        held = [made.shows if made.refresh >> slot & 1 else other for slot, other in enumerate(held)]


def reconstructed(data, recon):
    """The planes of all entries, each from the plan of its frame."""
    planes = []
    for frame in frames_of(data, lambda number: planes[number]):
        planes.append(recon(frame.plan) if frame.shows == len(planes) else planes[frame.shows])
    return planes


def frame(refresh, part, slots=range(7), settings=b"\0\0"):
    return settings + bytes(slots) + bytes([refresh]) + struct.pack("<I", len(part)) + part


def sequence(frames, width=512, height=512, depth=10, sampling=0):
    return b"RSQ1" + struct.pack("<HHBBH", width, height, depth, sampling, len(frames)) + b"".join(frames)


def shown_and_not(entries, width=73, height=51, depth=10, sampling=0):
    return b"RSQ2" + struct.pack("<HHBBH", width, height, depth, sampling, len(entries)) + b"".join(entries)


def hidden():
    """Entries of the second version: frame 0; 1, from it, which entry 3 shows; 2, from 1; 3; 4, from 1 and never shown; and 5, from 4."""
    plain, *others = (leaves_of(odd(depth=10, seed=seed, moves=seed > 0)) for seed in range(5))
    heads = [(1, 3, 0), (0, 4, 0), (1, 0, 2), None, (0, 1, 3), (1, 0, 0)]
    parts = iter([plain, *others])
    return shown_and_not([b"\2\2\10" if head is None else bytes(head[:1]) + frame(head[1], next(parts), 7 * [head[2]]) for head in heads])


def leaves_of(plan):
    """The bytes of a plan's leaves, behind its references."""
    width, height, depth, sampling = struct.unpack_from("<HHBB", plan, 4)
    return plan[FRONT + bin(plan[19]).count("1") * plane_bytes(width, height, depth, sampling):]


def moving(make):
    """A frame without references, which all slots hold then, and four that are made from numbers. They replace slot 1, slots 0 and 2, none, and 3."""
    first = leaves_of(great(512, 2000))
    return sequence([frame(255, first)] + [frame(refresh, leaves_of(make(number))) for number, refresh in ((1, 2), (2, 5), (3, 0), (4, 8))])


# ---- grids of tiles


class Tile:
    """A tile of a grid: its place, and its plan."""

    def __init__(self, x, y, plan):
        self.x, self.y, self.plan = x, y, plan


def starts_at(data, at):
    """The starts of columns or of rows, and the place behind them."""
    count = data[at]
    return [0, *struct.unpack_from(f"<{count - 1}H", data, at + 1)], at + 2 * count - 1


def front_of(data):
    """The frame of a grid, without leaves."""
    whole = Plan.__new__(Plan)
    whole.data, whole.leaves, whole.types, whole.lists = data, [], [], []
    whole.read_front()
    return whole


def tiles_of(data):
    """The tiles of a grid, each with its rectangle of the references."""
    whole = front_of(data)
    columns, at = starts_at(data, whole.at)
    rows, at = starts_at(data, at)
    tiles = []
    for y, below in zip(rows, rows[1:] + [whole.height]):
        for x, right in zip(columns, columns[1:] + [whole.width]):
            (length,) = struct.unpack_from("<I", data, at)
            front = (b"RPL3" if data[:4] == b"RTL2" else b"RPL2") + struct.pack("<HH", right - x, below - y) + data[8:20]
            slots = b"".join(rectangle(whole, samples, x, y, right, below) for _, samples in sorted(whole.slots.items()))
            tiles.append(Tile(x, y, front + slots + data[at + 4:at + 4 + length]))
            at += 4 + length
    return tiles


def rectangle(frame, planes, x, y, right, below):
    """The bytes of a rectangle of each plane, whose sides are in luma samples."""
    samples = []
    for p, (width, _) in enumerate(frame.sides):
        across, down = (0, 0) if p == 0 else frame.halved
        samples += [planes[p][row * width + column] for row in range(y >> down, below + down >> down) for column in range(x >> across, right + across >> across)]
    return bytes(samples) if frame.bytes == 1 else struct.pack(f"<{len(samples)}H", *samples)


def joined(data, recon):
    """The planes of a grid's frame, of each tile from its own plan."""
    width, height, depth, sampling = struct.unpack_from("<HHBB", data, 4)
    size = 1 if depth == 8 else 2
    planes = [bytearray(size * w * h) for w, h in halves(width, height, sampling)]
    for tile in tiles_of(data):
        at, found = 0, recon(tile.plan)
        sides = halves(*struct.unpack_from("<HH", tile.plan, 4), sampling)
        for p, (wide, high) in enumerate(sides):
            row_length = size * halves(width, height, sampling)[p][0]
            x, y = tile.x * sides[p][0] // sides[0][0], tile.y * sides[p][1] // sides[0][1]
            for row in range(high):
                start = (y + row) * row_length + size * x
                planes[p][start:start + size * wide] = found[at:at + size * wide]
                at += size * wide
    return b"".join(planes)


def two_tiles(make):
    """Two tiles of 512x512, made from numbers, from one slot with other samples in each tile."""
    draw, width, height = random.Random(11), 1024, 512
    slot = []
    for p, (w, h) in enumerate(halves(width, height, 0)):
        levels = (480, 530) if p else (300, 700)
        slot += [levels[x * 2 >= w] + draw.randrange(64) for _ in range(h) for x in range(w)]
    front = b"RTL1" + struct.pack("<HHBBBB", width, height, 10, 0, 0, 1) + bytes(7) + b"\1" + struct.pack(f"<{len(slot)}H", *slot)
    parts = [leaves_of(make(number)) for number in (5, 6)]
    return front + b"\2" + struct.pack("<H", 512) + b"\1" + b"".join(struct.pack("<I", len(part)) + part for part in parts)


def odd_tiles():
    """Two tiles of version 3, of which the second has no sides that are multiples of 8, from one slot."""
    draw, width, height = random.Random(12), 64 + 73, 51
    slot = bytes(draw.randrange(256) for w, h in halves(width, height, 0) for _ in range(w * h))
    front = b"RTL2" + struct.pack("<HHBBBB", width, height, 8, 0, 0, 0) + bytes(7) + b"\1" + slot
    parts = [leaves_of(odd(64, height, seed=3)), leaves_of(odd(73, height, seed=4))]
    return front + b"\2" + struct.pack("<H", 64) + b"\1" + b"".join(struct.pack("<I", len(part)) + part for part in parts)
