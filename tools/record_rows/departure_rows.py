"""Runs where plans aren't AV1, and the same plans of the third version, which are. They stand first, for docs/DIFFERENCES.md names them by their numbers."""
from plans import DOWN_TO_4, REFERRING, SINGLE, changed, header, leaf, planes, tiles
from runs import NEVER, TOOLS

# The sharp filter along 4 samples of chroma: a column of 128 in U among zeros, and a leaf half a sample of chroma beside it.
COLUMN_OF_U = planes(128) + 4 * b"\0\x80\0\0" + planes(128, count=16)
HALF_ASIDE = b"\3\3\3\0" + leaf(mode=19, vectors=[(1, 0, 8)], tx_size=1)
SHARP_IN_CHROMA = changed(REFERRING, (9, 0), (10, 2), (19, 1)) + COLUMN_OF_U + HALF_ASIDE
# The least coefficient at depth 12 that wraps in the identity of 4 values, and in that of 16.
WRAPPING_4 = header(depth=12) + DOWN_TO_4 + leaf(tx_type=9, y=[(0, 0, 370703)]) + 3 * leaf()
WRAPPING_16 = header(16, 16, depth=12) + b"\3\3\0" + leaf(tx_size=2, tx_type=9, y=[(0, 0, 185352)])
# A lossless frame whose first block has 45050 at the start of its first row once rows are transformed: more than 16 bits. Its first column then gives 100.
PAST_16_BITS = [(0, place, -29900 if place % 4 else 90100) for place in range(16)]
LOSSLESS = header(depth=10) + DOWN_TO_4 + leaf(tx_type=16, uv_type=16, y=PAST_16_BITS) + 3 * leaf(tx_type=16, uv_type=16)
# Two tiles, each a leaf that reads one sample into the other tile's part of a reference that rises along rows.
RISING = bytes(8 * list(range(128))) + planes(128, count=2048)
BACK = b"\0" + leaf(mode=19, vectors=[(1, 0, -8)], tx_size=4)
TILES_WITH_MOTION = tiles([SINGLE, BACK], mask=1, references=RISING)


def record(runs):
    for plan in (SHARP_IN_CHROMA, WRAPPING_4, WRAPPING_16):
        runs.add("departures", plan)
    runs.add("departures", TILES_WITH_MOTION, ("tiles",), kind=TOOLS, out=(2**20, 100, NEVER))
    for plan in (SHARP_IN_CHROMA, WRAPPING_4, WRAPPING_16):
        runs.add("departures, in the third version", b"RPL3" + plan[4:])
    runs.add("departures, in the third version", b"RTL2" + TILES_WITH_MOTION[4:], ("tiles",), kind=TOOLS, out=(2**20, 100, NEVER))
    runs.add("departures", LOSSLESS)
    runs.add("departures, in the third version", b"RPL3" + LOSSLESS[4:])
