"""Runs of the tools: grids of tiles, traces, sequences, plans without their coefficients."""
from departure_rows import BACK, RISING
from plans import (AGAIN, APART, DIRECTIONAL, DOWN_TO_4, FLAT, FROM_LUMA_420, HALVED, HIDDEN, MOVED, NINE_BY_NINE, ONE_HALF, ONE_SAMPLE, PLAIN, PLAN,
                   QUARTERS, SHOWN, SINGLE, changed, header, leaf, moved, of_two, parts, planes, sequence, shown_sequence, tiles)
from runs import NEVER, TOOLS, reads_of
from tilgwaren import trace

# A leaf of 64x64 from above, one by DC, one from the left, and one from the first slot.
FROM_ABOVE, BY_DC, FROM_LEFT = (b"\0" + leaf(mode=mode, tx_size=4) for mode in (1, 0, 2))
SAME_PLACE = b"\0" + leaf(mode=19, vectors=[(1, 0, 0)], tx_size=4)
BROKEN = b"\0" + leaf(mode=1, step=4, tx_size=4)

TWO_TILES = tiles([FROM_ABOVE, BY_DC])
PLANES_OF_PLAN = planes(131, 128, 128)
SAME = trace(PLAN, PLANES_OF_PLAN)
OTHER = changed(SAME, (91 + 4, 130))
TWO_FRAMES = sequence([(1, FROM_ABOVE), (0, SAME_PLACE)])


def worked_tiles(add):
    """Grids of tiles: whole, cut, with starts that none has, with parts that are refused, and the first of these."""
    slant = [b"\0" + leaf(mode=mode, tx_size=4) for mode in (1, 1, 2, 3)]
    grid = [64 * it for it in range(1, 32)]
    cases = [
        TWO_TILES, tiles([FROM_ABOVE, BY_DC], columns=(72,)), tiles([FROM_ABOVE, b"\4" + BY_DC[1:]]), tiles([b"\4", BY_DC]), tiles([BROKEN, b"\4"]),
        tiles([FROM_ABOVE, BROKEN + b"x"]), tiles([BROKEN, BY_DC]) + b"x", TWO_TILES[:-1], TWO_TILES[:45], tiles([FROM_ABOVE, b""]),
        changed(TWO_TILES, (20, 0)), changed(TWO_TILES, (20, 33)), changed(TWO_TILES, (4, 88)), changed(TWO_TILES, (46, 4), (28, 4)),
        tiles([FROM_ABOVE] + 31 * [BY_DC], width=2048, columns=grid), tiles([FROM_ABOVE, SINGLE]),
        tiles(slant, height=72, rows=(64,)), tiles([FROM_ABOVE, BY_DC], depth=10, mask=1, references=b"\0\4" + bytes(6142)), b"", b"RPL1"]
    cases += [tiles([FROM_ABOVE, BY_DC], columns=starts) for starts in ((0,), (128,), (64, 64), (64, 192), ())]
    cases += [tiles(slant, height=72, rows=(64,), depth=depth, sampling=sampling) for depth in (8, 10, 12) for sampling in range(3)]
    for it in cases:
        add("tiles", it, ("tiles",), out=(2**20, 100, NEVER))
    for count in range(len(TWO_TILES)):
        add("tiles, cut", TWO_TILES[:count], ("tiles",))


def slopes(width, height, sampling=2, depth=8, slots=1):
    """Reference planes that rise along rows and down columns, in each slot and plane by other steps."""
    xdec, ydec = int(sampling < 2), int(sampling == 0)
    each = 1 if depth == 8 else 2
    samples = b""
    for slot in range(slots):
        for plane, (dx, dy) in enumerate(((0, 0), (xdec, ydec), (xdec, ydec))):
            for row in range(height + dy >> dy):
                for column in range(width + dx >> dx):
                    value = ((3 + plane + slot) * column + (5 - plane) * row + 40 * slot) % 256 << depth - 8
                    samples += value.to_bytes(each, "little")
    return samples


def third_grids(add):
    """Grids of the third version: blocks that lead into another tile and out of the frame, from one reference and from two, small leaves, any sides,
    sides and starts that none has, and parts that are refused."""
    def by(row, col):
        return b"\0" + leaf(mode=19, vectors=[(1, row, col)], tx_size=4)

    def grid(parts, magic=b"RTL2", **more):
        return tiles(parts, magic=magic, **more)

    def sloped(parts, width, height, sampling=0, depth=8, **more):
        return grid(parts, width=width, height=height, sampling=sampling, depth=depth, mask=1, references=slopes(width, height, sampling, depth), **more)

    of_two_slots = b"\0" + leaf(mode=33, vectors=[(1, 4, 260), (2, -7, 9)], tx_size=4)
    other_two = b"\0" + leaf(mode=33, vectors=[(2, 0, -400), (1, 33, -16000)], tx_size=4)
    two = {"mask": 3, "slots": (0, 1, 0, 0, 0, 0, 0)}
    four = [by(0, 8), by(0, -8), by(-8, 4), by(-12, -20)]
    corner = [by(0, 0), by(-3, 5), by(9, -9), parts(((0, -512), *APART[:2], (-512, -13)))]
    cases = [
        grid([by(0, -16000), by(0, 16000)], mask=1, references=RISING), grid([by(0, 512), by(0, -512)], mask=1, references=RISING),
        grid([by(0, 8), BACK], mask=1, references=RISING, filter=2), sloped(four, 67, 69, columns=(64,), rows=(64,)),
        grid([FROM_ABOVE, BY_DC], width=65, height=1), grid([SAME_PLACE], width=1, height=1, columns=(), mask=1, references=b"\7\x08\x09")]
    others = ((1, 8), (2, 10), (0, 12), (1, 12))
    cases += [sloped(four, 65, 66, sampling, depth, columns=(64,), rows=(64,)) for sampling, depth in others]
    cases += [sloped(corner, 72, 72, columns=(64,), rows=(64,))]
    cases += [sloped(corner[::3], 72, 8, depth=depth, filter=filter, columns=(64,)) for filter in range(4) for depth in (8, 10)]
    cases += [
        grid([of_two_slots, other_two], width=99, sampling=sampling, references=slopes(99, 8, sampling, slots=2), **two) for sampling in range(3)]
    refused = [
        grid([SAME_PLACE, SAME_PLACE]), grid([FROM_ABOVE, by(16384, 0)], mask=1, references=RISING), grid([FROM_ABOVE, b"\4"]),
        grid([FROM_ABOVE, BY_DC], width=64), grid([FROM_ABOVE, BY_DC], width=2049), grid([FROM_ABOVE, BY_DC], height=0),
        grid([FROM_ABOVE, BY_DC], width=67, magic=b"RTL1"), grid([FROM_ABOVE, BY_DC], magic=b"RTL3"), grid([FROM_ABOVE, BY_DC], magic=b"RTL0"),
        grid([FROM_ABOVE, BY_DC], mask=1, references=RISING[:-1])]
    for it in cases:
        add("tiles, in the third version", it, ("tiles",), out=(2**20, 100, NEVER))
    for it in refused:
        add("tiles, in the third version, refused", it, ("tiles",))


def worked_traces(add):
    """Traces: the plan's own planes, others, those that are cut or too long, and plans that are refused."""
    worse = header() + DOWN_TO_4 + leaf() + leaf(y=[(0, 16, 1)]) + leaf() + leaf()
    several = changed(SAME, (91 + 4, 130), (91 + 13, 0), (91 + 64, 129))
    quarter = header(sampling=0) + DOWN_TO_4 + 3 * leaf(carried=False) + leaf()
    ten = header(depth=10, sampling=0) + b"\0" + leaf(tx_size=4)
    cases = [
        SAME, OTHER, several, changed(SAME, (91 + 15, 1), (91 + 21, 2), (91 + 24, 3)), SAME[:-1], SAME + b"\0", trace(PLAN, b""), SAME[:90],
        changed(SAME, (4, 1), (7, 4)), changed(SAME, (4, 0), (7, 4)), b"RTL1" + SAME[4:], b"", trace(PLAN[:-1], PLANES_OF_PLAN[:5]),
        trace(b"", b""), trace(worse, PLANES_OF_PLAN), trace(PLAN, bytes([9]) * 192), trace(HALVED, planes(128, count=96)),
        trace(quarter, planes(128) + b"\1" + planes(128, count=31)), trace(ten, b"\0\2" * 95 + b"\xff\xff"), trace(ten, b"\0\2" * 95 + b"\0"),
        trace(changed(HALVED, (8, 10)), b"\xff" * 192), trace(DIRECTIONAL, bytes(384)), trace(FROM_LUMA_420, planes(127, count=96))]
    cases += [changed(SAME, it) for it in ((3, 0x32), (7, 5), (5, 2), (4, 84), (28, 4), (36, 1), (4, 82))]
    for it in cases:
        add("trace", it, ("trace",), out=(2000, 100, NEVER))
    for count in range(0, len(SAME), 3):
        add("trace, cut", SAME[:count], ("trace",))
    for place in range(91, len(SAME), 5):
        add("trace, one sample", changed(SAME, (place, 255 - SAME[place])), ("trace",))


def any_sides(add):
    """Traces and plans of frames whose sides are no multiples of 8; grids and sequences of the first version, which have none."""
    shown = 8 * bytes([40, 50, 60, 70, 80, 80, 80, 80, 80]) + planes(128, 128, count=72)
    nine = trace(moved(0, 32), shown)
    front = len(nine) - len(shown)
    at_the_side = trace(NINE_BY_NINE, planes(128, count=131))
    for it in (nine, nine[:-1], nine + b"\0", at_the_side, trace(NINE_BY_NINE, planes(128, count=130)), trace(ONE_SAMPLE, b"\x80\x80\x7f")):
        add("trace, any sides", it, ("trace",), out=(2000, 100, NEVER))
    for place in (0, 8, 9, 71, 72, 80, 143, 144, 215):
        add("trace, any sides, one sample", changed(nine, (front + place, 1)), ("trace",))
    for place in (8, 80, 81, 85, 105, 106, 130):
        add("trace, any sides, one sample", changed(at_the_side, (8 + len(NINE_BY_NINE) + place, 1)), ("trace",))
    for it in (ONE_SAMPLE, NINE_BY_NINE, moved(3, 5), moved(16384, 0), b"RPL3" + PLAN[4:], changed(ONE_SAMPLE, (3, 0x32))):
        add("bare, any sides", it, ("bare",), out=(500, 7, NEVER))
    for place in (4, 6):
        add("tiles, any sides", changed(TWO_TILES, (place, 9)), ("tiles",))
        add("sequence, any sides", changed(TWO_FRAMES, (place, 9)), ("sequence",))


def worked_sequences(add):
    """Sequences: frames from those before, empty slots, refused frames behind accepted ones, heads that are refused."""
    of_two_slots = b"\0" + leaf(mode=33, vectors=[(1, 0, 0), (2, 0, 0)], tx_size=4)
    slots = (0, 1, 0, 0, 0, 0, 0)
    cases = [
        TWO_FRAMES, sequence([(0, FROM_ABOVE), (0, SAME_PLACE)]), sequence([]), sequence([])[:11], sequence([(1, FROM_ABOVE), (0, b"\4"), (0, FROM_ABOVE)]),
        sequence([(1, FROM_ABOVE), (0, SAME_PLACE + b"x")]), sequence([(1, BROKEN)]) + b"x", sequence([(1, FROM_ABOVE)], count=2), TWO_FRAMES[:-1],
        sequence([(1, FROM_ABOVE), (2, FROM_LEFT), (0, of_two_slots, slots)]), sequence([(1, SAME_PLACE)]),
        sequence([(255, FROM_ABOVE), (1, FROM_LEFT), (0, SAME_PLACE)]), sequence([(1, FROM_ABOVE), (255, b"\4"), (0, SAME_PLACE)]),
        sequence([(1, FROM_ABOVE), (0, BROKEN)]), sequence([(1, FROM_ABOVE)], count=0), b"RPL1"]
    fields = ((12, 4), (13, 2), (14, 8), (20, 8), (4, 12), (8, 9), (9, 3), (21, 0), (10, 0), (10, 3), (22, 13))
    cases += [changed(TWO_FRAMES, it) for it in fields]
    cases += [sequence([(1, FROM_ABOVE), (2, SAME_PLACE), (0, of_two_slots, slots)], 16, 24, depth, sampling)
              for depth in (8, 10, 12) for sampling in range(3)]
    for it in cases:
        add("sequence", it, ("sequence",), out=(2**16, 100, NEVER))
    for count in range(len(TWO_FRAMES)):
        add("sequence, cut", TWO_FRAMES[:count], ("sequence",))


def shown_sequences(add):
    """Sequences whose frames are shown or not: slots that are shown again, empty ones, frames of any sides, heads that are refused."""
    first, flat = (it[len(header()):] for it in (PLAN, FLAT))
    odd, right = b"\3\3\0" + leaf(tx_size=2), b"\0" + leaf(mode=19, vectors=[(1, 0, 32)], tx_size=1)
    slant, broken = (b"\0" + leaf(mode=mode, step=step, tx_size=4) for mode, step in ((3, 0), (1, 4)))
    kept = shown_sequence([(HIDDEN, 1, first), (SHOWN, 2, flat), (AGAIN, 0, 0)])
    cases = [
        [(SHOWN, 1, flat), (AGAIN, 3, 0)], [(SHOWN, 1, first), (SHOWN, 2, flat), (AGAIN, 0, 255), (AGAIN, 7, 0)], [(HIDDEN, 1, flat)], [],
        [(SHOWN, 1, first), (SHOWN, 0, flat), (AGAIN, 0, 0), (SHOWN, 0, flat)], [(3, 1, flat)], [(AGAIN, 8, 0)], [(AGAIN, 0, 0)],
        [(SHOWN, 1, flat), (HIDDEN, 1, b"\0")], [(HIDDEN, 255, first), (AGAIN, 7, 1), (HIDDEN, 128, flat), (AGAIN, 7, 0), (AGAIN, 6, 0)],
        [(SHOWN, 1, flat), (HIDDEN, 2, broken), (AGAIN, 1, 0)], [(SHOWN, 1, flat), (AGAIN, 1, 0), (SHOWN, 0, broken)], [(HIDDEN, 1, flat), (SHOWN, 0, right)],
        [(SHOWN, 1, first), (AGAIN, 0, 2), (SHOWN, 0, SAME_PLACE, (1,) * 7)]]
    files = [kept, *map(shown_sequence, cases), shown_sequence([(HIDDEN, 255, odd), (SHOWN, 0, odd), (AGAIN, 7, 0)], 9, 9, sampling=0)]
    files += [shown_sequence([(AGAIN, 1, 0)])[:cut] for cut in (12, 13, 14)]
    files += [shown_sequence([(SHOWN, 0, flat)], *sides) for sides in ((1, 1), (7, 8), (9, 8), (0, 8), (8, 0), (8, 2049), (2049, 8))]
    files += [shown_sequence([(kind, 1, slant), (SHOWN, 0, right), (AGAIN, 0, 0)], 9, 13, depth, sampling)
              for kind in (HIDDEN, SHOWN) for depth in (8, 10, 12) for sampling in range(3)]
    files += [sequence([], 9), changed(kept, (3, 0x31)), changed(kept, (3, 0x33)), changed(TWO_FRAMES, (3, 0x32)), kept + b"\0"]
    files += [shown_sequence([(SHOWN, 1, first), (AGAIN, 0, 0)], count=count) for count in (1, 3)]
    for file in files:
        add("sequence, shown", file, ("sequence",), out=(2**16, 100, NEVER))
        add("sequence, shown", file, ("sequence",), out=(2**16, 100, 30))
    for place in range(12, 17):
        for value in (1, 2, 3, 8, 255):
            add("sequence, shown, field", changed(kept, (place, value)), ("sequence",), out=(2**16, 100, NEVER))
    for count in range(0, len(kept), 3):
        add("sequence, shown, cut", kept[:count], ("sequence",))
    for call in (0, 1, 7, 8, 23, 24, 25, 47, 48, 49):
        add("sequence, shown, write", kept, ("sequence",), out=(4096, 8, call))
    for room in (0, 8, 191, 192, 200, 383, 384):
        add("sequence, shown, room", kept, ("sequence",), out=(room, 100, NEVER))


def worked_plans(add):
    """Plans of which the coefficients are left out."""
    worse = header() + DOWN_TO_4 + leaf() + leaf(y=[(0, 16, 1)]) + leaf() + leaf()
    quarters = header(64, 64, magic=b"RPL2") + b"\x08" + leaf(tx_size=18, y=[(0, 0, 5)]) + 3 * leaf(tx_size=18)
    cases = [
        PLAN, PLAIN, HALVED, HALVED[:-1], worse, QUARTERS, quarters, MOVED, of_two(9), of_two(16384), DIRECTIONAL, FROM_LUMA_420, ONE_HALF,
        ONE_HALF + b"\0", header(mask=1) + planes(10, 128, 128) + SAME_PLACE, b"", changed(PLAN, (19, 1)), changed(PLAN, (34, 16))]
    for it in cases:
        add("bare", it, ("bare",), out=(500, 7, NEVER))
    for count in range(len(PLAN)):
        add("bare, cut", PLAN[:count], ("bare",))


def faults(add):
    """Each read and many writes that fail, sinks with little room, in pieces; and words that name no tool."""
    files = {"tiles": TWO_TILES, "trace": changed(OTHER, (91 + 64, 1)), "sequence": TWO_FRAMES, "bare": PLAN}
    for word, file in files.items():
        for piece in (7, 64):
            for call in range(reads_of(len(file), piece) + 1):
                add(f"{word}, read", file, (word,), piece=piece, failing_read=call)
        for piece, calls in ((5, (0, 1, 2, 3, 5, 7, 8, 9, 14, 15, 16, 20, 21, 30, 50, 100)), (100, (0, 1, 2, 3, 4, 24, 30, 31, 47, 48))):
            for call in calls:
                add(f"{word}, write", file, (word,), out=(4096, piece, call))
        for room in (0, 1, 10, 76, 97, 104, 192, 200, 383, 384, 3071, 3072):
            add(f"{word}, room", file, (word,), out=(room, 100, NEVER))
    refused = {"tiles": TWO_TILES[:-1], "trace": SAME[:-1], "sequence": changed(TWO_FRAMES, (21, 0)), "bare": PLAN[:-1]}
    for word, file in refused.items():
        for err in ((5, 1, NEVER), (60, 3, 2), (0, 7, NEVER), (60, 7, 0)):
            add(f"{word}, line", file, (word,), err=err)
        for call in (0, 5, 23, 24):
            add(f"{word}, line behind a write that fails", file, (word,), out=(4096, 100, call))
    for words in ((), ("x",), ("--help",), ("tiles", "tiles"), ("bare", "1"), ("Tiles",), ("",), ("tile",), ("traces",), ("make", "1"), ("bare", "")):
        add("words", PLAN, words, failing_read=0)
    add("words, line", PLAN, ("x",), err=(20, 6, NEVER))


def record(runs):
    def add(*call, **more):
        runs.add(*call, kind=TOOLS, **more)

    for rows in (worked_tiles, third_grids, worked_traces, worked_sequences, worked_plans, faults, any_sides, shown_sequences):
        rows(add)
    add("too long", words=("tiles",), piece=2**26 + 1, zeros=2**26 + 1)
