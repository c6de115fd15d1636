"""A second reader of plans, and plans to look at."""
import random
import struct

SIZES = [(4, 4), (8, 8), (16, 16), (32, 32), (64, 64), (4, 8), (8, 4), (8, 16), (16, 8), (16, 32), (32, 16), (32, 64), (64, 32), (4, 16), (16, 4),
         (8, 32), (32, 8), (16, 64), (64, 16)]

# The weights of smooth prediction along a side, in 256ths.
CURVES = {4: [255, 149, 85, 64], 8: [255, 197, 146, 105, 73, 50, 37, 32],
          16: [255, 225, 196, 170, 145, 123, 102, 84, 68, 54, 43, 33, 26, 20, 17, 16],
          32: [255, 240, 225, 210, 196, 182, 169, 157, 145, 133, 122, 111, 101, 92, 83, 74, 66, 59, 52, 45, 39, 34, 29, 25, 21, 17, 14, 12, 10, 9, 8, 8],
          64: [255, 248, 240, 233, 225, 218, 210, 203, 196, 189, 182, 176, 169, 163, 156, 150, 144, 138, 133, 127, 121, 116, 111, 106, 101, 96, 91, 86, 82, 77,
               73, 69, 65, 61, 57, 54, 50, 47, 44, 41, 38, 35, 32, 29, 27, 25, 22, 20, 18, 16, 15, 13, 12, 10, 9, 8, 7, 6, 6, 5, 5, 4, 4, 4]}

# The change of a byte that each number of packed predictions is.
CHANGES = [number // 2 if number % 2 == 0 else 255 - number // 2 for number in range(256)]


def halves(width, height, sampling):
    """The sides of the planes of a frame: half of an odd side is rounded up."""
    half = (width + (sampling < 2) >> (sampling < 2), height + (sampling == 0) >> (sampling == 0))
    return [(width, height), half, half]


def cuts(mark, side):
    """The parts of a node that has this partition mark: their places in it, and their sides."""
    half, quarter = side // 2, side // 4
    return {0: [(0, 0, side, side)], 1: [(0, 0, side, half), (0, half, side, half)], 2: [(0, 0, half, side), (half, 0, half, side)],
            3: [(0, 0, half, half), (half, 0, half, half), (0, half, half, half), (half, half, half, half)],
            8: [(0, i * quarter, side, quarter) for i in range(4)], 9: [(i * quarter, 0, quarter, side) for i in range(4)]}[mark]


class Plan:
    """What a plan says: its frame, the planes of its slots, and its leaves as lists of number, column, row, sides, mode, step, chroma mode,
    weights, vectors, sides of luma transforms and triples."""

    def __init__(self, data):
        self.data, self.leaves, self.types, self.lists = data, [], [], []
        self.read_front()
        for y in range(0, self.coded[0][1], 64):
            for x in range(0, self.coded[0][0], 64):
                self.node(x, y, 64)

    def read_front(self):
        """The frame's settings, and the planes of its slots."""
        data = self.data
        self.width, self.height, self.depth, self.sampling = struct.unpack_from("<HHBB", data, 4)
        self.mask = data[19]
        self.halved = self.sampling < 2, self.sampling == 0
        self.sides = halves(self.width, self.height, self.sampling)
        self.coded = halves(self.width + 7 & ~7, self.height + 7 & ~7, self.sampling)
        self.bytes = 1 if self.depth == 8 else 2
        length, self.at, self.slots = self.bytes * sum(w * h for w, h in self.sides), 20, {}
        for slot in range(8):
            if self.mask >> slot & 1:
                self.slots[slot] = self.samples(data[self.at:self.at + length])
                self.at += length

    def take(self, form):
        values = struct.unpack_from("<" + form, self.data, self.at)
        self.at += struct.calcsize("<" + form)
        return values if len(values) > 1 else values[0]

    def node(self, x, y, side):
        if x >= self.coded[0][0] or y >= self.coded[0][1]:
            return
        mark = self.take("B")
        for dx, dy, w, h in cuts(mark, side):
            if mark == 3 and side > 8:
                self.node(x + dx, y + dy, w)
            else:
                self.leaf(x + dx, y + dy, w, h)

    def triples(self):
        start = self.at
        triples = [list(self.take("BHi")) for _ in range(self.take("H"))]
        self.lists.append((start, triples))
        return triples

    def leaf(self, x, y, w, h):
        if x >= self.coded[0][0] or y >= self.coded[0][1]:
            return
        carried = not (self.halved[0] and w == 4 and x // 4 % 2 == 0) and not (self.halved[1] and h == 4 and y // 4 % 2 == 0)
        mode, step, chroma, weights, vectors = self.take("B"), 0, -1, None, []
        if mode < 14:
            step = self.take("b")
            if carried:
                chroma = self.take("B")
                weights = list(self.take("bb")) if chroma == 13 else None
                if weights is None:
                    self.take("b")
        else:
            vectors = [list(self.take("Bhh")) for _ in range(1 if mode < 20 else 2)]
        size = self.take("B")
        types = self.take("BB") if carried else (self.take("B"),)
        triples = [self.triples() for _ in range(3 if carried else 1)]
        self.leaves.append([len(self.leaves), x, y, w, h, mode, step, chroma, weights, vectors, list(SIZES[size]), triples])
        self.types.append(types[0])

    def samples(self, planes):
        """The samples of bytes of planes, plane by plane."""
        values = planes if self.bytes == 1 else struct.unpack(f"<{len(planes) // 2}H", planes)
        result, at = [], 0
        for w, h in self.sides:
            result.append(values[at:at + w * h])
            at += w * h
        return result

    def unpacked(self, planes, data):
        """The bytes of predictions, from those of planes and from what is packed against them."""
        changes, at = bytearray(), 0
        for _ in range(0, len(planes), 8):
            bits, word = data[at], int.from_bytes(data[at + 1:at + 1 + data[at]], "little")
            at += 1 + bits
            changes += bytes(CHANGES[word >> bits * i & (1 << bits) - 1] for i in range(8)) if bits else bytes(8)
        if at != len(data):
            raise ValueError("bytes are left over behind the packed predictions")
        residues = bytearray(self.width * self.bytes)
        for i, change in enumerate(changes[:len(planes)]):
            residues.append(change + residues[i] & 255)
        return bytes(sample - residue & 255 for sample, residue in zip(planes, residues[self.width * self.bytes:]))

    def luma(self, leaf):
        """How many luma samples of the frame lie in a leaf."""
        x, y, w, h = leaf[1:5]
        return max(min(x + w, self.width) - x, 0) * max(min(y + h, self.height) - y, 0)

    def cut(self, number, block):
        """The plan with none of the coefficients from a transform block on: those of this block and of the later ones in list `number` of
        triples, and those of all lists behind."""
        pieces, at = [], 0
        for i, (start, triples) in enumerate(self.lists):
            left = triples if i < number else [t for t in triples if i == number and t[0] < block]
            pieces += [self.data[at:start], struct.pack("<H", len(left))] + [struct.pack("<BHi", *t) for t in left]
            at = start + 2 + 7 * len(triples)
        return b"".join(pieces) + self.data[at:]

    def blocks(self, leaf, p):
        """The transform blocks of a leaf in a plane that begin in what is coded of it: number, column, row and sides."""
        x, y, w, h = leaf[1:5]
        (across, down), (tw, th) = (0, 0), leaf[10]
        if p:
            across, down = self.halved
            x, y, w, h = x // 4 // (1 + across) * 4, y // 4 // (1 + down) * 4, max(w >> across, 4), max(h >> down, 4)
            tw, th = min(w, 32), min(h, 32)
        places = [(x + dx, y + dy) for dy in range(0, h, th) for dx in range(0, w, tw)]
        return [(n, bx, by, tw, th) for n, (bx, by) in enumerate(places) if bx < self.coded[p][0] and by < self.coded[p][1]]

    def inside(self, samples, p, x, y, w, h):
        """The samples of a plane's rectangle, as far as it is visible."""
        width, height = self.sides[p]
        return [samples[p][row * width + column] for row in range(y, min(y + h, height)) for column in range(x, min(x + w, width))]

    def leaf_at(self, x, y):
        return next(leaf for leaf in self.leaves if leaf[1] <= x < leaf[1] + leaf[3] and leaf[2] <= y < leaf[2] + leaf[4])

    def sharers(self, leaf):
        """The leaves that have chroma in common with a leaf, in coding order: those in the same 8 columns or rows where it is halved along a side of 4."""
        def block(other):
            sides = [(other[1], other[3], self.halved[0]), (other[2], other[4], self.halved[1])]
            return [at // 8 if side == 4 and halved else (at, side) for at, side, halved in sides]

        return [other for other in self.leaves if block(other) == block(leaf)]


# ---- plans to look at


def stripes():
    """A plan of version 2 at depth 8 in 4:2:0: stripes both ways, and a leaf whose chroma is predicted from luma."""
    header = b"RPL2" + struct.pack("<HHBBBB", 64, 64, 8, 0, 0, 1) + bytes(8)
    plain = bytes([0, 0, 0, 0]) + bytes([0, 0, 0]) + struct.pack("<HBHi", 1, 0, 0, 800) + bytes(4)
    smooth = bytes([9, 0, 13, 5, 256 - 7]) + bytes([1, 0, 0]) + struct.pack("<HBHiBHi", 2, 0, 1, -300, 3, 0, 500) + bytes(4)
    slanted = bytes([3, 2, 12, 0]) + bytes([0, 0, 0]) + bytes(6)
    return header + bytes([3, 8]) + 4 * plain + bytes([9]) + 4 * slanted + bytes([0]) + smooth + bytes([1]) + 2 * slanted


def great(side, most=250):
    """A plan of leaves of 8x8 at depth 8 in 4:2:0 with modes of every kind, and coefficients of less than `most`."""
    draw = random.Random(7)
    out = [b"RPL1" + struct.pack("<HHBBBB", side, side, 8, 0, 0, 0) + bytes(8)]

    def leaf():
        mode = draw.randrange(13)
        step = draw.randrange(-3, 4) if 1 <= mode <= 8 else 0
        count = draw.randrange(3)
        return (bytes([0, mode, step % 256, draw.choice((0, 9, 12)), 0, 1, 0, 0]) + struct.pack("<H", count)
                + b"".join(struct.pack("<BHi", 0, i, draw.randrange(-most, most)) for i in range(count)) + bytes(4))

    def node(size):
        out.append(b"\3")
        for _ in range(4):
            if size == 16:
                out.append(leaf())
            else:
                node(size // 2)

    for _ in range((side // 64) ** 2):
        node(64)
    return b"".join(out)


def odd(width=73, height=51, depth=8, sampling=0, seed=9, moves=True):
    """A plan of version 3 whose sides are no multiples of 8: leaves of 8x8 and with a side of 4, some of which lie past what is shown, intra and, where
    it moves, from slot 0. Those that share chroma are all intra, all from slot 0, or both."""
    draw = random.Random(seed)
    planes = [draw.randrange(1 << depth) for side in halves(width, height, sampling) for _ in range(side[0] * side[1])]
    out = [b"RPL3" + struct.pack("<HHBBBB", width, height, depth, sampling, 0, 0) + bytes(7) + bytes([moves])]
    out.append(struct.pack(f"<{len(planes)}{'B' if depth == 8 else 'H'}", *planes) if moves else b"")
    columns, rows = width + 7 & ~7, height + 7 & ~7

    def leaf(x, y, w, h, part):
        carried = not (sampling < 2 and w == 4 and x // 4 % 2 == 0) and not (sampling == 0 and h == 4 and y // 4 % 2 == 0)
        if draw.random() < part:
            vectors = [struct.pack("<Bhh", 1, draw.randrange(-200, 200), draw.randrange(-200, 200)) for _ in range(draw.choice((1, 1, 1, 2)))]
            out.append(bytes([19 if len(vectors) == 1 else 33]) + b"".join(vectors))
        else:
            out.append(bytes([draw.choice((0, 9, 12)), 0]) + (bytes([draw.choice((0, 1, 2, 9)), 0]) if carried else b""))
        out.append(bytes([SIZES.index((w, h)), 0]) + (b"\0" if carried else b""))
        count = draw.randrange(3)
        out.append(struct.pack("<H", count) + b"".join(struct.pack("<BHi", 0, i, draw.randrange(-900, 900)) for i in range(count)))
        out.append(bytes(4) if carried else b"")

    def node(x, y, side):
        if x >= columns or y >= rows:
            return
        whole = x + side <= columns and y + side <= rows
        marks = {8: (0, 0, 3, 3, 1, 2), 16: (3, 3, 3, 8, 9) if whole else (3,)}.get(side, (3,))
        mark = draw.choice([mark for mark in marks if sampling != 1 or mark not in (2, 9)])
        part = draw.choice((0, 0.5, 0.8, 1)) * moves
        out.append(bytes([mark]))
        for dx, dy, w, h in cuts(mark, side):
            if mark == 3 and side > 8:
                node(x + dx, y + dy, w)
            else:
                leaf(x + dx, y + dy, w, h, part)

    for y in range(0, rows, 64):
        for x in range(0, columns, 64):
            node(x, y, 64)
    return b"".join(out)


def trace_of(plan, planes, changes):
    """A trace of a plan and its planes, of which some bytes are changed."""
    given = bytearray(planes)
    for at, value in changes:
        given[at] = value
    return b"RTR1" + struct.pack("<I", len(plan)) + plan + bytes(given)


def differing_everywhere(plan, planes):
    """A trace of a plan of depth 8 of which each sample differs by 1 to 5."""
    given = bytes((value + 1 + place % 5) % 256 for place, value in enumerate(planes))
    return b"RTR1" + struct.pack("<I", len(plan)) + plan + given


def sharp(filter_number=2, column=8, version=1):
    """One leaf of 8x8 in 4:2:0 from a reference whose U has a stripe, by this filter and a vector of so many eighths to the right."""
    stripe = bytes([0, 128, 0, 0])
    header = b"RPL%d" % version + struct.pack("<HHBBBB", 8, 8, 8, 0, filter_number, 0) + bytes(7) + b"\1"
    return header + bytes([128]) * 64 + 4 * stripe + bytes([128]) * 16 + bytes([3, 3, 3, 0, 19, 1]) + struct.pack("<hh", 0, column) + bytes([1]) + bytes(8)


def identity(value, kind=9, side=4, version=1):
    """At depth 12 in 4:4:4 leaves of this side, the first of them with one coefficient and a transform of this type."""
    header = b"RPL%d" % version + struct.pack("<HHBBBB", *2 * [max(side, 8)], 12, 2, 0, 0) + bytes(8)
    leaf = bytes([0, 0, 0, 0]) + bytes([0 if side == 4 else 2, kind, 0]) + struct.pack("<HBHi", 1, 0, 0, value) + bytes(4)
    return header + (bytes([3, 3, 3, 3]) + leaf + 3 * bytes(13) if side == 4 else bytes([3, 3, 0]) + leaf)


def lossless(value, depth=12, version=1):
    """Leaves of 4x4 in 4:4:4, the first of them lossless, with four coefficients of this value in its first row."""
    header = b"RPL%d" % version + struct.pack("<HHBBBB", 8, 8, depth, 2, 0, 0) + bytes(8)
    first = bytes([0, 0, 0, 0, 0, 16, 16]) + struct.pack("<H", 4) + b"".join(struct.pack("<BHi", 0, 4 * i, value) for i in range(4)) + bytes(4)
    return header + bytes([3, 3, 3, 3]) + first + 3 * bytes(13)
