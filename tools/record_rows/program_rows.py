"""Runs of the program on worked plans, whole, broken, cut and in pieces."""
from plans import (APART, DIRECTIONAL, DOWN_TO_4, FLAT, FROM_LUMA_420, FROM_LUMA_422, HALVED, HALVED_QUARTERS, LIFTED, MOVED, NINE_BY_NINE, ONE_HALF,
                   ONE_ROW, ONE_SAMPLE, PLAIN, PLAN, QUARTERS, REFERRING, SINGLE, SMALL_QUARTERS, WIDE, changed, header, leaf, moved, of_two, parts,
                   planes, sloping)
from runs import NEVER

# Where fields stand: of the header, of a plan of one leaf, and of the first leaf of the plan of four.
WIDTH, HEIGHT, DEPTH, SAMPLING, EDGE_FILTER, MASK = 4, 6, 8, 9, 11, 19
MARK, MODE, STEP, CHROMA, CHROMA_STEP, SIZE, TYPE, CHROMA_TYPE = 20, 21, 22, 23, 24, 25, 26, 27
FIRST_MODE, FIRST_STEP, FIRST_SIZE, FIRST_TYPE = 24, 25, 28, 29


def one_leaf(add):
    """A leaf of 64x64: cut, too long, with each field that it can't have, in each format, and many of them."""
    for it in (HALVED[:33], HALVED + b"\0", b"", HALVED[:19], HALVED[:3]):
        add("one leaf, cut or too long", it)
    for place, value in ((WIDTH, 12), (DEPTH, 9), (MARK, 4), (MODE, 34), (SIZE, 19), (TYPE, 17), (CHROMA, 14), (CHROMA_TYPE, 17)):
        add("one leaf, a value that its field does not have", changed(HALVED, (place, value)))
    for mode, step in ((13, 0), (1, 4), (0, 1), (1, 252), (8, 3), (12, 255)):
        add("one leaf, mode or step", changed(HALVED, (MODE, mode), (STEP, step)))
    for mode in range(13):
        add("one leaf, chroma mode", changed(HALVED, (CHROMA, mode), (CHROMA_STEP, 255 * (mode in range(1, 9))), (EDGE_FILTER, mode % 2)))
    add("one leaf, chroma of a large leaf", header(sampling=0) + b"\0" + leaf(weights=(1, 1), tx_size=4))
    for them in ([(0, 5, 1), (0, 5, 2)], [(0, 1024, 1)], [(1, 0, 1)], [(0, 0, 32768)], [(0, 0, -32769)], [(0, 0, 32767)], [(0, 1023, -32768)]):
        add("one leaf, triples", header(sampling=0) + b"\0" + leaf(tx_size=4, y=them))
    for it in ((TYPE, 1), (TYPE, 9), (CHROMA_TYPE, 1), (CHROMA_TYPE, 9)):
        add("one leaf, transform of 64", changed(HALVED, it))
    add("one leaf, half without chroma size", header(64, 64, sampling=1) + b"\2" + 2 * leaf())
    for sampling in range(3):
        for depth in (8, 10, 12):
            add("one leaf, format", changed(HALVED, (SAMPLING, sampling), (DEPTH, depth)))
    for room in (0, 10, 95, 96):
        add("one leaf, room", HALVED, out=(room, 7, NEVER))
    add("one leaf, 510 superblocks", header(1920, 1080, sampling=0) + 510 * HALVED[MARK:], piece=4096, out=(3_110_400, 4096, NEVER))


def four_leaves(add):
    """Four leaves of 4x4: intra modes, and chroma from luma."""
    cases = (
        PLAIN, LIFTED, changed(LIFTED, (EDGE_FILTER, 1), (57, 8)), changed(PLAIN, (24, 2), (37, 7), (50, 3)), changed(PLAIN, (24, 9)),
        changed(PLAIN, (24, 2), (37, 12), (50, 12), (63, 12)), changed(PLAN, (FIRST_MODE, 1), (FIRST_STEP, 4)), changed(PLAN, (FIRST_STEP, 1)),
        header() + DOWN_TO_4 + leaf(weights=(16, -16), tx_type=16, y=[(0, 0, 8)]) + 3 * leaf(), changed(PLAIN[:55], (SAMPLING, 0)),
        changed(PLAIN, (24, 2), (37, 1)), DIRECTIONAL, FROM_LUMA_420, FROM_LUMA_422)
    for it in cases:
        add("four leaves", it)
    for mode in range(13):
        for depth in (8, 10, 12):
            add("four leaves, mode", changed(LIFTED, (DEPTH, depth), (44, 1), (57, mode), (EDGE_FILTER, mode % 2)), out=(384, 7, NEVER))
    for weights in ((16, 16), (-16, 0), (0, 1), (17, 0), (0, -17)):
        add("four leaves, weights", header() + DOWN_TO_4 + leaf(weights=weights, y=[(0, 0, 500)]) + 3 * leaf())


def frames(add):
    """Other frames and transforms, nodes in quarters, and the ends of numbers."""
    wrap = [(0, 0, 524287), (0, 8, 524287)]
    cases = (
        FLAT, changed(FLAT + FLAT[MARK:], (WIDTH, 72), (MODE, 1)), WIDE, changed(PLAN, (DEPTH, 10)), changed(PLAN, (FIRST_TYPE, 16), (36, 8)),
        header(depth=12) + DOWN_TO_4 + leaf(y=wrap) + 3 * leaf(),
        QUARTERS, changed(QUARTERS, (3, 0x31)), changed(QUARTERS, (HEIGHT, 56)), SMALL_QUARTERS, HALVED_QUARTERS,
        header(64, 64, sampling=1, magic=b"RPL2") + b"\x09" + 4 * leaf(tx_size=17), header(64, 64, magic=b"RPL2") + b"\x09" + 4 * leaf(tx_size=17),
        header(64, 64, sampling=0, magic=b"RPL2") + b"\x09" + 4 * leaf(tx_size=17, y=[(0, 3, -300)]))
    for it in cases:
        add("frames", it, out=(12288, 100, NEVER))
    for value in (524287, -524288, 524288, -524289):
        add("frames, ends of a coefficient", header(depth=12) + DOWN_TO_4 + leaf(tx_type=9, y=[(0, 0, value)]) + 3 * leaf())
    for width, height in ((8, 72), (72, 8), (72, 72)):
        count = -(-width // 64) * -(-height // 64)
        add("frames, a little longer than a superblock", header(width, height, sampling=0) + count * HALVED[MARK:], out=(7776, 100, NEVER))
    for size in range(19):
        for kind in range(17):
            shape = header(64, 64) + b"\0" + leaf(mode=size % 13, tx_size=size, tx_type=kind, y=[(0, 0, 1200), (0, 5, -700)])
            if kind in (0, 9, 16) or (size + kind) % 3 == 0:
                add("frames, transform", shape, piece=100, out=(12288, 1000, NEVER))


def references(add):
    """Leaves from one reference and from two, whole samples and parts of them, and what their vectors and slots may not be."""
    halved = changed(REFERRING, (MASK, 1), (SAMPLING, 0)) + MOVED[20:84] + 8 * bytes([0, 20, 40, 60]) + SINGLE
    flat = header() + b"\3\3\3\1" + leaf(mode=16, vectors=[(1, 16384, 0)]) + leaf()
    cases = (
        MOVED, halved, of_two(0), of_two(16383), of_two(16384), REFERRING + SINGLE, changed(REFERRING, (MASK, 1), (DEPTH, 10)) + b"\0\4", flat,
        REFERRING + b"\3\3\3\1" + leaf(mode=19, vectors=[(1, 0, 8)]) + leaf(), b"RPL2" + MOVED[4:],
        changed(REFERRING, (MASK, 1)) + planes(10, 128, 128) + SINGLE, header(mask=1) + planes(1, 2, 3) + b"\3\3\3\2" + leaf(
            mode=19, vectors=[(1, 0, 0)]) + leaf())
    for it in cases:
        add("references", it, out=(256, 7, NEVER))
    for vector in ((1, 0, 16383), (1, 0, -16383), (1, 0, 16384), (1, 0, -16384), (1, -16384, 0), (7, 5, 3), (2, 0, 0)):
        for mode in (14, 19):
            add("references, vector", MOVED[:212] + b"\0" + leaf(mode=mode, vectors=[vector], tx_size=4))
        add("references, vector without planes", REFERRING + b"\0" + leaf(mode=14, vectors=[vector], tx_size=4))
    for mode in range(14, 34):
        vectors = [(1, 3, -5)] if mode < 20 else [(1, 3, -5), (3, -7, 9)]
        add("references, mode", MOVED[:212] + b"\0" + leaf(mode=mode, vectors=vectors, tx_size=4))
    for depth in (8, 10, 12):
        for filter in range(4):
            for vectors in ([(7, 9, -13)], [(1, 9, -13), (7, -6, 20)], [(1, 8, 0)], [(1, 0, 4)]):
                add("references, two slots", two_slots(depth, filter, vectors), piece=100, out=(1000, 100, NEVER))


def two_slots(depth, filter, vectors):
    """A frame of 16x8 in 4:2:0 with planes in slots 2 and 5, of which the last reference alone names the latter, and one leaf."""
    def plane(count, seed):
        numbers = [(k * k * 7 + k * 13 + seed * 101) % (1 << depth) for k in range(count)]
        return b"".join(it.to_bytes(1 if depth == 8 else 2, "little") for it in numbers)

    front = header(16, 8, depth, 0, filter, 1, (2, 2, 2, 2, 2, 2, 5), 36)
    slots = b"".join(plane(count, seed + at) for seed in (6, 15) for at, count in enumerate((128, 32, 32)))
    return front + slots + b"\3\3\1" + leaf(mode=14 if len(vectors) == 1 else 20, vectors=vectors, tx_size=8)


def refusals(add):
    """What is refused of worked plans, by fields and by reasons, and which reason comes first."""
    cases = (
        PLAN[:82], PLAN + b"\0", b"", changed(PLAN, (MASK, 1)), ONE_HALF, ONE_HALF + b"\0", changed(WIDE, (30, 2)), changed(WIDE, (30, 8)),
        changed(PLAN, (FIRST_SIZE, 1)), changed(FLAT, (SIZE, 1), (TYPE, 16)), changed(FLAT, (CHROMA_TYPE, 16)),
        changed(FLAT + FLAT[MARK:], (WIDTH, 72), (34, 4)), changed(PLAN, (36, 0), (37, 128)))
    for it in cases:
        add("refusals", it)
    fields = ((4, 12), (8, 9), (9, 3), (10, 4), (MASK, 1), (20, 4), (24, 14), (24, 20), (24, 34), (26, 14), (28, 19), (29, 17), (33, 1), (34, 16),
              (35, 1), (37, 128), (39, 255), (0, 0), (3, 0x33), (5, 9), (12, 8), (18, 9), (6, 0), (7, 8))
    for it in fields:
        add("refusals, field", changed(PLAN, it))
    for sampling, mark in ((0, 2), (1, 1), (1, 2), (2, 2)):
        add("refusals, halves", header(64, 64, sampling=sampling) + bytes([mark]) + 2 * leaf())
    for size, kind, uv_type in ((4, 0, 0), (4, 1, 0), (0, 0, 16), (0, 16, 0), (3, 9, 0), (3, 10, 0), (2, 15, 9), (2, 16, 0)):
        add("refusals, transforms", header(sampling=2) + b"\0" + leaf(tx_size=size, tx_type=kind, uv_type=uv_type))
    for mode, step in ((13, 0), (1, 4), (0, 1), (1, -3)):
        add("refusals, modes", header(64, 64) + b"\0" + leaf(mode=mode, step=step))
    add("refusals, modes", header(64, 64, sampling=0) + b"\3" + 4 * (b"\0" + leaf(mode=1, step=-4)))
    add("refusals, chroma from luma", header(64, 64) + b"\0" + leaf(weights=(1, 1)))
    add("refusals, chroma from luma", header(64, 64) + b"\3" + 4 * (b"\0" + leaf(weights=(1, 1))))
    faulty = leaf(mode=19, vectors=[(1, 16384, 0)], tx_size=4, tx_type=3, y=[(9, 9, 9), (0, 0, 0)])
    far, lost = (leaf(mode=19, vectors=[(1, row, 0)], tx_size=4, y=[(9, 9, 9)]) for row in (16384, 0))
    for it in (faulty, far, lost):
        add("refusals, order", header(64, 64, sampling=1) + b"\0" + it)
        add("refusals, order in halves", header(64, 64, sampling=1) + b"\2" + 2 * it)


def faults(add):
    """Plans cut at each byte and changed at each byte; each read and each write that fails, in pieces."""
    for piece in (1, 2, 7, 4096):
        for count in range(83):
            if piece in (7, 1 + count % 2):
                add("faults, cut", PLAN[:count], piece=piece, out=(192, piece, NEVER))
        for call in range(-(-83 // piece) + 2):
            add("faults, read", PLAN, piece=piece, failing_read=call, out=(192, piece, NEVER))
        for call in range(24 * -(-8 // piece) + 2):
            add("faults, write", PLAN, piece=piece, out=(192, piece, call))
    for plan in (HALVED, MOVED, QUARTERS, DIRECTIONAL, HALVED_QUARTERS, two_slots(10, 1, [(1, 2, 3), (7, 4, 5)])):
        for count in range(0, len(plan), 1 if len(plan) < 240 else 5):
            add("faults, cut", plan[:count], piece=9)
    for plan, step in ((PLAN, 1), (HALVED_QUARTERS, 1), (DIRECTIONAL, 2)):
        for place in range(0, len(plan), step):
            for value in sorted({plan[place] ^ 1, plan[place] + 1 & 255, 255, plan[place] ^ 128}):
                add("faults, changed", changed(plan, (place, value)), piece=33)
    for room in range(0, 200, 9):
        add("faults, room", PLAN, piece=9, out=(room, 5, NEVER))


def lines(add):
    """Statuses and lines, lines on sinks without room, and words that are no command."""
    for it in (PLAN, HALVED, PLAN[:82], changed(PLAN, (MASK, 1)), changed(PLAN, (34, 16))):
        add("lines", it, out=(192, 7, NEVER))
    add("lines, without room", b"", piece=1, out=(192, 1, NEVER), err=(5, 1, NEVER))
    for room, piece, failing in ((40, 3, 2), (0, 7, NEVER), (40, 1, 0), (16, 20, NEVER), (15, 20, NEVER)):
        add("lines, a write that fails", PLAN[:82], err=(room, piece, failing))
    add("lines, both sinks", PLAN, out=(10, 7, NEVER), err=(4, 3, NEVER))
    words = ("x", "make", "make 4294967296", "--help", "sum", "5", "make 1 2", "sum 1 make", "sum +1", "make -1", "make ", "make 00000000001",
             "make 9999999999", "sum 0x1", "Make 1", "recon", "make make", "sum 1e3", "make 4294967295 ", " ")
    for it in words:
        add("lines, words", PLAN, it.split(" "), failing_read=0)
    for it in (("make", "1 "), ("",), ("sum", "\u00e9")):
        add("lines, words", PLAN, it, failing_read=0)


def made(add):
    """Plans of numbers, and the four lines on one."""
    for number in ("0", "1", "0000000005", "7", "1024", "4294967295"):
        add("made", PLAN, ("make", number), failing_read=0, out=(900_000, 65536, NEVER))
    for number in ("0", "05"):
        add("made, sums", PLAN, ("sum", number), failing_read=0)
    add("made, sums", PLAN, ("sum", "5"), failing_read=0, out=(100, 7, 3))
    add("made, full", PLAN, ("make", "5"), failing_read=0, out=(26, 7, NEVER))


def sides(add):
    """Frames of any sides: worked plans, vectors that lead past a side, and sides that a version doesn't admit."""
    quarters = header(61, 57, magic=b"RPL3") + b"\x08" + 4 * leaf(tx_size=18)
    cases = (
        ONE_SAMPLE, NINE_BY_NINE, ONE_ROW, b"RPL3" + PLAN[4:], b"RPL3" + HALVED_QUARTERS[4:], b"RPL3" + FROM_LUMA_420[4:], b"RPL3" + DIRECTIONAL[4:],
        quarters, changed(quarters, (HEIGHT, 56)), changed(quarters, (3, 0x32)), changed(NINE_BY_NINE, (WIDTH, 8)), changed(NINE_BY_NINE, (HEIGHT, 17)))
    for it in cases:
        add("sides", it, out=(12288, 100, NEVER))
    for lower, upper in ((0, 0), (1, 8), (0, 8), (9, 0), (255, 255)):
        for place in (WIDTH, HEIGHT):
            add("sides, a side", changed(ONE_SAMPLE, (place, lower), (place + 1, upper)), out=(12288, 100, NEVER))
    for version in b"124":
        add("sides, an earlier version", changed(ONE_SAMPLE, (3, version)))
        add("sides, an earlier version", changed(moved(0, 32), (3, version)))
    for row, col in ((0, 32), (0, 0), (0, 8), (0, 4), (3, 5), (32, 0), (-32, -32), (0, 72), (0, 16383), (16383, -16383), (16384, 0), (0, 16384)):
        for filter in range(4):
            add("sides, vector", changed(moved(row, col), (10, filter)))
    for count in (*range(0, 24), 91, 92, 163, 164, 235, 236, 237, 240):
        add("sides, cut", moved(0, 32)[:count])
    for room in (0, 8, 9, 80, 81, 105, 106, 130, 131):
        add("sides, room", NINE_BY_NINE, out=(room, 7, NEVER))
    for call in range(20):
        add("sides, write", NINE_BY_NINE, out=(131, 7, call))


def shared_chroma(add):
    """Chroma that leaves with a side of 4 share: in parts, whole beside an intra leaf at each place, from two references; and in earlier versions, which
    have no such leaves."""
    second, fourth = APART[1], APART[3]
    quarters = [list(APART), [second, fourth, second, fourth], [(0, 4), (4, 0), (3, -5), (-7, 9)], [(0, 0, 8, 8), (16, 0), (0, 5, 3, 0), (-16, 0)],
                [(0, 16383), (-16383, 0), (999, -5), (0, 0)]]
    quarters += [[None if at == place else vector for at, vector in enumerate(APART)] for place in range(4)]
    halves = [[second, fourth], [(3, -5), (-7, 9)], [(0, 16383), (-16383, 8)], [None, fourth], [second, None], [(1, 2, 3, 4), (5, 6)], [(5, 6), (1, 2, 3, 4)]]
    leaves = [parts(it) for it in quarters] + [parts(it, mark, sides) for it in halves for mark, sides in ((1, (8, 4)), (2, (4, 8)))]
    for depth in (8, 10, 12):
        for filter in range(4):
            for it in leaves:
                add("shared chroma", sloping(depth, filter) + it, out=(500, 100, NEVER))
    for magic in (b"RPL1", b"RPL2"):
        for it in leaves:
            add("shared chroma, an earlier version", sloping(magic=magic) + it)


def record(runs):
    for rows in (one_leaf, four_leaves, frames, references, refusals, faults, lines, made, sides, shared_chroma):
        rows(runs.add)
    runs.add("too long", piece=2**26 + 1, zeros=2**26 + 1)
