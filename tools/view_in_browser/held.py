"""What pages hold: leaves, samples, classes, departures and differences, against a second reader of plans."""
import json
import random
import struct
import time
from collections import Counter

from checks import drawn

LEAVES = """view.leaves.map((l) => [l.number, l.x, l.y, l.width, l.height, l.mode, l.step, l.chromaMode, l.weights,
  (l.motions || []).map((m) => [m.reference, m.row, m.column]), view.transformSides(l),
  l.triples.map((t, p) => view.coefficients(l.number, p).map((c) => [c.block, c.place, c.value]))])"""

# How many transform blocks with coefficients of a plan are looked at.
MOST_BLOCKS = 60


def look_at_predictions(checks, name, plan, planes, predictions, reconstructed):
    """What each transform block is predicted as. Where it has no coefficients that is what it is reconstructed as; else what the plan comes to
    there without the coefficients of the block and of all that follow, of which nothing has been decoded when it is predicted."""
    planes, predictions = plan.samples(planes), plan.samples(predictions)
    others, changed, number = 0, [], 0
    for leaf in plan.leaves:
        for p, triples in enumerate(leaf[11]):
            have = {t[0] for t in triples}
            for n, *block in plan.blocks(leaf, p):
                if n in have:
                    changed.append((number, n, p, block))
                else:
                    others += plan.inside(planes, p, *block) != plan.inside(predictions, p, *block)
            number += 1
    checks.same(f"{name}: blocks without coefficients whose prediction is another", others, 0)
    for number, n, p, block in random.Random(5).sample(changed, min(len(changed), MOST_BLOCKS)):
        wanted = plan.samples(reconstructed(plan.cut(number, n)))
        checks.same(f"{name}: the prediction of block {n} of plane {p} at {block}", plan.inside(predictions, p, *block), plan.inside(wanted, p, *block))


def look_at(browser, checks, name, path, plan, planes, predictions):
    """What each page has to hold: every leaf, samples of many places, and the sums of all. Gives how long it took to open."""
    begun = time.time()
    browser.open(path)
    opening = time.time() - begun
    found = browser.json(LEAVES)
    checks.same(f"{name}: leaves", len(found), len(plan.leaves))
    checks.same(f"{name}: what the leaves say", found, plan.leaves)
    checks.same(f"{name}: bytes that were read", browser.value("view.plan.end"), len(plan.data))
    checks.same(f"{name}: at the end of the plan", plan.at, len(plan.data))
    held = {"reconstruction": plan.samples(planes), "prediction": plan.samples(predictions), **{f"slot {slot}": samples for slot, samples in plan.slots.items()}}
    draw = random.Random(3)
    places = [(p, draw.randrange(plan.sides[p][0]), draw.randrange(plan.sides[p][1])) for p in (0, 1, 2) for _ in range(60)]
    names = list(held) + ["residual"]
    wanted = []
    for p, x, y in places:
        i = y * plan.sides[p][0] + x
        values = [samples[p][i] for samples in held.values()]
        wanted.append(values + [values[0] - values[1]])
    script = f"{json.dumps(places)}.map(([p, x, y]) => {json.dumps(names)}.map((s) => view.sample(s, p, x, y)))"
    checks.same(f"{name}: samples", browser.json(script), wanted)
    for source, samples in held.items():
        found = browser.value(f"view.sources.find((s) => s.name === '{source}').of.reduce((sum, v) => sum + v, 0)")
        checks.same(f"{name}: the sum of all samples of {source}", found, sum(map(sum, samples)))
    look_at_classes(browser, checks, name, plan)
    return opening


def look_at_classes(browser, checks, name, plan):
    """How many leaves each class has, and how many luma samples."""
    none_of_luma = [not leaf[11][0] for leaf in plan.leaves]
    for property_of, class_of in (
        ("mode", lambda leaf, none: leaf[5]), ("transform type", lambda leaf, none: -1 if none else plan.types[leaf[0]]),
        ("size", lambda leaf, none: leaf[3] * leaf[4] * 256 + leaf[3]),
        ("coefficients", lambda leaf, none: 0 if not sum(map(len, leaf[11])) else 1 + (sum(map(len, leaf[11])) - 1).bit_length()),
    ):
        counts, areas = Counter(), Counter()
        for leaf, none in zip(plan.leaves, none_of_luma):
            counts[class_of(leaf, none)] += 1
            areas[class_of(leaf, none)] += plan.luma(leaf)
        wanted = [[number, counts[number], areas[number]] for number in sorted(counts)]
        found = browser.json(f"view.classes('{property_of}').map((c) => [c.number, c.count, c.area])")
        checks.same(f"{name}: classes by {property_of}", found, wanted)


def look_at_differences(browser, checks, plan, planes):
    """The two samples of a trace that differ, as the page tells and marks them."""
    wanted = []
    for p, column, row, given in ((0, 200, 100, 257), (1, 33, 77, 258)):
        at = sum(w * h for w, h in plan.sides[:p]) + row * plan.sides[p][0] + column
        wanted.append({"plane": p, "row": row, "column": column, "given": given, "defined": struct.unpack_from("<H", planes, 2 * at)[0]})
    found = browser.json("({ count: view.differences.count, most: view.differences.most, list: view.differences.list })")
    leaves = [entry.pop("leaf") for entry in found["list"]]
    checks.same("how many samples differ", found["count"], 2)
    checks.same("by how much at most", found["most"], max(abs(entry["given"] - entry["defined"]) for entry in wanted))
    checks.same("which samples differ", found["list"], wanted)
    for leaf, entry in zip(leaves, wanted):
        shift = 1 if entry["plane"] else 0
        x, y, w, h = plan.leaves[leaf][1:5]
        checks.true("the leaf of a difference", x <= entry["column"] << shift < x + w and y <= entry["row"] << shift < y + h)
    browser.value("view.setSearch('differs')")
    checks.same("leaves that differ, by a search", browser.json("view.state.found"), sorted(leaves))
    browser.value("view.setSearch('')")
    browser.key("d", "d")
    checks.same("a difference by its key", browser.json("[view.state.x, view.state.y]"), [200, 100])
    checks.true("given and defined values", f"given {wanted[0]['given']}, defined {wanted[0]['defined']}" in browser.text("fields"))
    browser.value("view.fit({ x: 180, y: 90, width: 40, height: 30 }, 1)")
    before = drawn(browser)
    browser.key("9", "9")
    checks.true("differences are marked", drawn(browser) != before)
    browser.key("9", "9")


def look_at_departures(browser, checks, pages, plans):
    """Leaves that depart from AV1, and those of plans beside them that don't."""
    for name, plan, wanted in plans:
        path, _, _ = pages.write(name, plan)
        browser.open(path)
        checks.same(f"{name}: leaves that depart", browser.json("[...view.departures.keys()]"), wanted)
        checks.same(f"{name}: the page says so", browser.value("!document.getElementById('departing').hidden"), bool(wanted))
        checks.same(f"{name}: there is a layer for them", browser.value("document.getElementById('layer-departures') !== null"), bool(wanted))
        browser.value("view.setSearch('departs')")
        checks.same(f"{name}: a search finds them", browser.json("view.state.found"), wanted)
        checks.same(f"{name}: a leaf says so", "departs from AV1" in browser.text("fields"), bool(wanted))
        if wanted:
            before = drawn(browser)
            browser.key("x", "x")
            checks.true(f"{name}: it is marked", drawn(browser) != before)
        checks.same(f"{name}: faults of the page", browser.faults(), [])
