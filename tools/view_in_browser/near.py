"""What pages say of one block: its numbers, its edge, and what a direction reads; against the planes, and against a second predictor that starts
from the edges of the page and has to come to the proved predictions."""
import random

from checks import FRAMES
from plans import CURVES

# How many blocks of each mode are looked at.
MOST_OF_A_MODE = 6

BLOCK = """((b) => { const e = view.edgeOf(b);
  const rows = (height, width) => Array.from({ length: height }, (n, r) => Array.from({ length: width }, (m, c) => view.directed(view.readsOf(b, e, r, c))));
  return { number: b.number, x: b.x, y: b.y, width: b.width, height: b.height, leaf: b.leaf.number, edge: e,
    directed: e && e.prepared ? rows(b.height, b.width) : null }; })(view.blockAt(%d, %d, %d))"""


def blocks_of(plan):
    """The transform blocks of each plane in coding order, as leaf, number, column, row and sides, and for each sample which block codes it."""
    found, coded = [[], [], []], [{}, {}, {}]
    for leaf in plan.leaves:
        for p in range(len(leaf[11])):
            for number, x, y, w, h in plan.blocks(leaf, p):
                for row in range(y, y + h):
                    for column in range(x, x + w):
                        coded[p][column, row] = len(found[p])
                found[p].append((leaf, number, x, y, w, h))
    return found, coded


def mode_of(leaf, p):
    return None if leaf[9] else leaf[5] if p == 0 else leaf[7]


def look_at_edges(browser, checks, name, plan, planes, predictions):
    """The edges of blocks of every mode, and what a second predictor makes of them."""
    found, coded = blocks_of(plan)
    samples, wanted, draw = plan.samples(planes), plan.samples(predictions), random.Random(4)
    for p in range(3):
        modes = {}
        for i, block in enumerate(found[p]):
            modes.setdefault(mode_of(block[0], p), []).append(i)
        for mode, numbers in sorted((m, n) for m, n in modes.items() if m is not None):
            for i in draw.sample(numbers, min(len(numbers), MOST_OF_A_MODE)):
                leaf, number, x, y, w, h = found[p][i]
                where = f"{name}: plane {p}, leaf {leaf[0]}, block {number}"
                if x >= plan.sides[p][0] or y >= plan.sides[p][1]:
                    continue
                page = browser.json(BLOCK % (p, x, y))
                checks.same(f"{where}: its rectangle", [page[k] for k in ("leaf", "number", "x", "y", "width", "height")], [leaf[0], number, x, y, w, h])
                look_at_places(checks, where, plan, samples[p], coded[p], i, (p, x, y, w, h), page["edge"])
                if all(place["value"] is not None for side in ("above", "left") for place in page["edge"][side]):
                    again = predicted(plan, {**page, "shown": plan.sides[p]}, x, y, w, h)
                    if again:
                        checks.same(f"{where}: predicted again from its edge, mode {mode}", again, plan.inside(wanted, p, x, y, w, h))
        references = modes.get(None, [])
        if references:
            leaf, number, x, y, w, h = found[p][references[0]]
            checks.same(f"{name}: a block from references has no edge", browser.value(f"view.edgeOf(view.blockAt({p}, {x}, {y}))"), None)


def look_at_places(checks, where, plan, samples, coded, i, block, edge):
    """Each place of the edge: filled unless its sample is decoded before, and else that sample."""
    p, x, y, w, h = block
    width, height = plan.coded[p]
    for side, far, at in (("above", w, lambda k: (x + k, y - 1)), ("left", h, lambda k: (x - 1, y + k))):
        filled, values = [], []
        for k, place in enumerate(edge[side]):
            column, row = at(k)
            inside = 0 <= column < width and 0 <= row < height and k < far + min(w, h)
            decoded = inside and coded.get((column, row), i) < i
            filled.append(not decoded)
            shown = decoded and column < plan.sides[p][0] and row < plan.sides[p][1]
            values.append(samples[row * plan.sides[p][0] + column] if shown else place["value"])
        checks.same(f"{where}: filled places {side}", [place["isFilled"] for place in edge[side]], filled)
        checks.same(f"{where}: values {side}", [place["value"] for place in edge[side]], values)


def predicted(plan, page, x, y, w, h):
    """What the edge of a block predicts, sample by sample, as far as it is visible; none for chroma from luma."""
    edge = page["edge"]
    above, left = ([place["value"] for place in edge[side]] for side in ("above", "left"))
    mode, corner = edge["mode"], edge["corner"]["value"]
    if mode == 13:
        return None
    if page["directed"]:
        sample = lambda r, c: page["directed"][r][c]
    elif mode == 0:
        sides = (above[:w] if y > 0 else []) + (left[:h] if x > 0 else [])
        mean = (sum(sides) + len(sides) // 2) // len(sides) if sides else 1 << plan.depth - 1
        sample = lambda r, c: mean
    elif edge["angle"] is not None:
        sample = lambda r, c: above[c] if edge["angle"] == 90 else left[r]
    elif mode == 12:
        sample = lambda r, c: paeth(above[c], left[r], corner)
    else:
        down = lambda r, c: CURVES[h][r] * above[c] + (256 - CURVES[h][r]) * left[h - 1]
        across = lambda r, c: CURVES[w][c] * left[r] + (256 - CURVES[w][c]) * above[w - 1]
        sample = {9: lambda r, c: (down(r, c) + across(r, c) + 256) // 512, 10: lambda r, c: (down(r, c) + 128) // 256,
                  11: lambda r, c: (across(r, c) + 128) // 256}[mode]
    width, height = page["shown"]
    return [sample(r, c) for r in range(min(h, height - y)) for c in range(min(w, width - x))]


def paeth(above, left, corner):
    """The nearest of the three to above + left - corner."""
    wanted = above + left - corner
    return min((abs(wanted - left), 0, left), (abs(wanted - above), 1, above), (abs(wanted - corner), 2, corner))[2]
