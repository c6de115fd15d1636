"""What pages of sequences and of grids of tiles hold and show, against the plans of their frames and of their tiles."""
import json
import random

from checks import FRAMES, drawn, pixels, place_in_window
from edges import look_at_cursor, source_sample
from held import LEAVES
from plans import Plan

NAMES = ["", "LAST", "LAST2", "LAST3", "GOLDEN", "BWDREF", "ALTREF2", "ALTREF"]


def places_in(plan, count):
    draw = random.Random(3)
    return [(p, draw.randrange(plan.sides[p][0]), draw.randrange(plan.sides[p][1])) for p in (0, 1, 2) for _ in range(count)]


def look_at_samples(browser, checks, name, plan, held):
    """Samples of many places, and the sum of all, of everything that can be seen; `held` are the bytes of planes by the names of these."""
    checks.same(f"{name}: what can be seen", browser.json("view.sources.map((s) => s.name)"), list(held))
    places, samples = places_in(plan, 40), [plan.samples(planes) for planes in held.values()]
    script = f"{json.dumps(places)}.map(([p, x, y]) => view.sources.map((s) => view.sample(s.name, p, x, y)))"
    wanted = [[planes[p][y * plan.sides[p][0] + x] for planes in samples] for p, x, y in places]
    checks.same(f"{name}: samples", browser.json(script), wanted)
    found = browser.json("view.sources.map((s) => s.of.reduce((sum, v) => sum + v, 0))")
    checks.same(f"{name}: the sums of all samples", found, [sum(map(sum, planes)) for planes in samples])


# ---- sequences


def names_text(plan, slot):
    """The references of a frame that name a slot, in words."""
    slots = list(plan.data[12:19])
    names, others = ([name for name, other in zip(NAMES[1:], slots) if (other == slot) == same] for same in (True, False))
    if len(names) > 4:
        return "all but " + " ".join(others) if others else "all references"
    return " ".join(names) or "no reference"


def look_at_strip(browser, checks, frames, planes):
    """The frames of a sequence, from one to the next by arrows on the strip, each with its leaves, its planes and its slots."""
    checks.same("how many frames there are", browser.value("view.file.count"), len(frames))
    checks.same("and stand on the strip", browser.value("document.querySelectorAll('#frames canvas').length"), len(frames))
    checks.same("the strip has the focus", browser.value("document.activeElement.id"), "strip")
    for number, frame in enumerate(frames):
        name, plan = f"frame {number}", Plan(frame.plan)
        checks.same(f"{name}: its number", browser.json("[view.state.frame, Number(document.querySelector('#frames [aria-selected=true]').dataset.frame)]"),
                    2 * [number])
        checks.true(f"{name}: the panel says so", browser.text("frame").startswith(f"frame {number} of {len(frames)}, "))
        checks.true(f"{name}: and where it is shown and kept", browser.text("frame").endswith(", " + kept_text(frames, number)))
        checks.same(f"{name}: what the leaves say", browser.json(LEAVES), plan.leaves)
        held = {f"slot {slot}": planes[other] for slot, other in enumerate(frame.held) if other >= 0}
        look_at_samples(browser, checks, name, plan, {"reconstruction": planes[number], **held})
        labels = browser.json("[...document.querySelectorAll('#sources label')].map((l) => l.textContent.trim())")
        checks.same(f"{name}: its slots", labels, ["reconstruction"] + [
            f"slot {s}, frame {other} ({names_text(plan, s)})" for s, other in enumerate(frame.held) if other >= 0])
        look_at_cursor(browser, checks, name, plan, planes[number], min(200 + number, plan.width - 1), min(131, plan.height - 1))
        look_at_item(browser, checks, plan, number, frame, planes[number])
        browser.value("document.getElementById('strip').focus()")
        browser.key("ArrowRight")
    checks.same("behind the last frame there is none", browser.value("view.state.frame"), len(frames) - 1)


def is_held(frames, number):
    """Whether the page has the samples of an entry's frame: it is shown, if not here then elsewhere."""
    return any(other.shown and other.shows == frames[number].shows for other in frames)


def kept_text(frames, number):
    """What the panel says last of an entry."""
    frame, slots = frames[number], [str(slot) for slot in range(8) if frames[number].refresh >> slot & 1]
    kept = "all slots" if len(slots) == 8 else f"slot{'s' * (len(slots) > 1)} {', '.join(slots)}"
    if frame.shows != number:
        return f"frame {frame.shows} again, kept in " + (kept if slots else "no other slot")
    where = "" if frame.shown else "not shown here, " if is_held(frames, number) else "never shown, its samples are not here, "
    return where + "kept in " + (kept if slots else "no slot")


def look_at_item(browser, checks, plan, number, frame, planes):
    """The frame in small, with the slots that it replaces."""
    replaced = [str(slot) for slot in range(8) if frame.refresh >> slot & 1]
    spans = browser.json(f"[...document.querySelectorAll('#frame-{number} span')].map((s) => s.textContent)")
    said = f" again {frame.shows}" if frame.shows != number else "" if frame.shown else " hidden"
    checks.same(f"frame {number}: the slots that it replaces", spans[0], str(number) + said + (" to " + ("all" if len(replaced) == 8 else " ".join(replaced)) if replaced else ""))
    sides = browser.json(f"((c) => [c.width, c.height])(document.querySelector('#frame-{number} canvas'))")
    at = [side // 3 for side in sides]
    x, y = (int((at[i] + 0.5) * length / sides[i]) for i, length in enumerate((plan.width, plan.height)))
    found = browser.json(f"Array.from(document.querySelector('#frame-{number} canvas').getContext('2d').getImageData({at[0]}, {at[1]}, 1, 1).data)")
    checks.same(f"frame {number} in small: a sample", found, browser.json(f"view.pixel({x}, {y})"))


def look_at_steps(browser, checks, frames, planes):
    """From frame to frame by other keys and by the mouse; what is looked at stays."""
    browser.value("document.getElementById('strip').focus(), view.setFrame(0)")
    browser.key("ArrowLeft")
    checks.same("before the first frame there is none", browser.value("view.state.frame"), 0)
    browser.key(".", ".")
    browser.value("view.setSource('slot 2'), view.setComponent('U'), view.fit({ x: 100, y: 80, width: 100, height: 60 }, 1), view.moveTo(130, 100)")
    before = browser.json("[view.state.zoom, view.state.left, view.state.top, view.state.x, view.state.y]")
    browser.value("document.getElementById('picture').focus()")
    browser.key(".", ".")
    checks.same("the next frame by its key, from the picture", browser.value("view.state.frame"), 2)
    checks.same("the place stays", browser.json("[view.state.zoom, view.state.left, view.state.top, view.state.x, view.state.y]"), before)
    checks.same("and the samples that are seen", browser.json("[view.state.source.name, view.state.component]"), ["slot 2", "U"])
    checks.same("which are those of the frame", browser.value("document.querySelector('#sources input:checked').id"), "source-slot 2")
    browser.key("ArrowRight")
    checks.same("on the picture arrows move the cursor", browser.json("[view.state.frame, view.state.x]"), [2, 131])
    browser.key(",", ",")
    checks.same("the previous frame by its key", browser.value("view.state.frame"), 1)
    box = browser.json("document.getElementById('frame-3').getBoundingClientRect()")
    browser.click(box["x"] + box["width"] / 2, box["y"] + box["height"] / 2)
    checks.same("a frame by a click", browser.value("view.state.frame"), 3)
    browser.key("ArrowLeft")
    checks.same("arrows go on from there", browser.value("view.state.frame"), 2)
    seen = [drawn(browser)]
    for number in (3, 4):
        browser.value(f"view.setFrame({number})")
        seen.append(drawn(browser))
    browser.value("view.setFrame(0)")
    checks.same("a frame without that slot shows itself", browser.value("view.state.source.name"), "reconstruction")
    browser.value("view.setComponent('RGB'), view.fitFrame()")


def look_at_slots(browser, checks, frames, planes):
    """Vectors lead into the frames that the slots hold, and the strip tells which these are."""
    number = 2
    frame, plan = frames[number], Plan(frames[number].plan)
    browser.value(f"view.setFrame({number}), view.setComponent('Y'), view.setLayer('source', true)")
    slots = list(frame.plan[12:19])
    for leaf in [leaf for leaf in plan.leaves if leaf[9]][::9]:
        browser.value(f"view.moveToLeaf({leaf[0]})")
        captions = browser.json("[...document.querySelectorAll('#source figcaption')].map((c) => c.textContent.split(':')[0])")
        checks.same("the frames that a leaf reads", captions, [f"{NAMES[m]}, slot {slots[m - 1]}, frame {frame.held[slots[m - 1]]}" for m, _, _ in leaf[9]])
        reference, row, column = leaf[9][0]
        x, y = (8 * leaf[1] + column) // 8 + leaf[3] // 2, (8 * leaf[2] + row) // 8 + leaf[4] // 2
        at = min(max(y, 0), plan.height - 1) * plan.width + min(max(x, 0), plan.width - 1)
        wanted = plan.samples(planes[frame.held[slots[reference - 1]]])[0][at]
        checks.near("a sample of the source", source_sample(browser, leaf[3:5]), wanted / (1 << plan.depth - 8), 1)
    for other in range(len(frames)):
        names = " ".join(NAMES[i + 1] for i, slot in enumerate(slots) if frame.held[slot] == other)
        checks.same(f"what frame {other} is read as", browser.value(f"document.querySelector('#frame-{other} span:last-child').textContent"), names)
    browser.value("view.setLayer('source', false), view.setLocked(false), view.setComponent('RGB')")


def look_at_windows(browser, checks):
    """With a strip the picture keeps at least half of the window too."""
    for width, height in ((360, 640), (360, 480), (780, 600), (781, 600), (900, 480), (1100, 700), (1900, 1000)):
        browser.window(width, height)
        browser.value(FRAMES)
        box = browser.json("document.getElementById('picture').getBoundingClientRect()")
        checks.true(f"{width}x{height} with a strip: half is the picture's", box["width"] * box["height"] >= width * height / 2)
        checks.true(f"{width}x{height} with a strip: nothing reaches past the side", browser.value("document.documentElement.scrollWidth") <= width)
        checks.true(f"{width}x{height} with a strip: nothing reaches past the end", browser.value("document.documentElement.scrollHeight") <= height)
    browser.window(1100, 700)
    browser.value(FRAMES)


def look_at_long_strip(browser, checks, count):
    """Of many frames those stand on the strip that there is room for, and it follows the one that is shown."""
    checks.same("many frames", browser.value("view.file.count"), count)
    checks.true("those on the strip", 0 < browser.value("document.querySelectorAll('#frames canvas').length") < 40)
    browser.value(f"view.setFrame({count - 1})")
    browser.value(FRAMES)
    box = browser.json("((e) => e && e.getBoundingClientRect())(document.querySelector('#frames [aria-selected=true]'))")
    ends = browser.json("((e) => [e.left, e.right])(document.getElementById('strip').getBoundingClientRect())")
    checks.true("the strip follows", box and ends[0] - 1 <= box["left"] and box["right"] <= ends[1] + 1)


# ---- grids of tiles


def look_at_grid(browser, checks, name, tiles, planes):
    """The leaves of all tiles at their places in the frame, and the frame's planes."""
    wanted, number = [], 0
    for tile in tiles:
        for leaf in Plan(tile.plan).leaves:
            wanted.append([number + leaf[0], tile.x + leaf[1], tile.y + leaf[2], *leaf[3:]])
        number = len(wanted)
    checks.same(f"{name}: what the leaves say", browser.json(LEAVES), wanted)
    found = browser.json("view.plan.tiles.map((t) => [t.x, t.y, t.width, t.height])")
    checks.same(f"{name}: its tiles", found, [[t.x, t.y, *Plan(t.plan).sides[0]] for t in tiles])
    total = browser.value("view.sources[0].of.length")
    depth, size = tiles[0].plan[8], 1 if tiles[0].plan[8] == 8 else 2
    checks.same(f"{name}: how many samples", size * total, len(planes))
    values = [int.from_bytes(planes[size * i:size * i + size], "little") for i in range(total)]
    checks.same(f"{name}: the sum of all samples", browser.value("view.sources[0].of.reduce((sum, v) => sum + v, 0)"), sum(values))
    width = browser.value("view.frame.width")
    for tile in tiles:
        x, y = tile.x + 5, tile.y + 3
        checks.same(f"{name}: a sample of a tile", browser.value(f"view.sample('reconstruction', 0, {x}, {y})"), values[y * width + x])
        checks.near(f"{name}: in grey", browser.value(f"(view.setComponent('Y'), view.pixel({x}, {y})[0])"), values[y * width + x] / (1 << depth - 8), 1)
    browser.value("view.setComponent('RGB')")
    for i, tile in enumerate(tiles):
        browser.value(f"view.moveTo({tile.x}, {tile.y})")
        checks.true(f"{name}: a leaf's tile", f"tile{i}, its leaf 0" in browser.text("fields"))


def look_at_borders(browser, checks, tiles):
    """The borders of tiles are drawn, and switched by their key."""
    tile = tiles[-1]
    browser.value("['superblocks', 'leaves', 'modes', 'vectors'].forEach((l) => view.layers[l] && view.setLayer(l, false)), view.setLocked(true), "
                  f"view.moveTo(0, 0), view.fit({{ x: {tile.x} - 40, y: {tile.y} - 4, width: 80, height: 60 }}, 1)")
    x, y = place_in_window(browser, tile.x - 0.5, tile.y + 24)
    border = pixels(browser, [[x, y]])[0]
    checks.same("the border of a tile", border, [255, 122, 223])
    browser.key("t", "t")
    checks.same("tiles by their key", browser.json("[view.layers.tiles, document.getElementById('layer-tiles').checked]"), 2 * [False])
    checks.true("no border then", pixels(browser, [[x, y]])[0] != border)
    browser.value("['superblocks', 'leaves', 'modes', 'vectors', 'tiles'].forEach((l) => document.getElementById('layer-' + l) && view.setLayer(l, true)), "
                  "view.setLocked(false), view.fitFrame()")


def look_at_tile_sources(browser, checks, tiles, frame=None):
    """A block of a tile is predicted from its tile's rectangle of a reference alone, past which its last sample stands; or from this whole frame."""
    browser.value("view.setComponent('Y'), view.setLayer('source', true)")
    ahead, past = 0, 0
    for tile in tiles:
        plan = Plan(tile.plan)
        for leaf in plan.leaves:
            if not leaf[9]:
                continue
            _, row, column = leaf[9][0]
            x, y = (8 * leaf[1] + column) // 8 + leaf[3] // 2, (8 * leaf[2] + row) // 8 + leaf[4] // 2
            outside = not (0 <= x < plan.width and 0 <= y < plan.height)
            read = frame or plan
            if frame:
                x, y = tile.x + x, tile.y + y
            if not outside and leaf[0] % 11:
                continue
            past += outside
            browser.value(f"view.moveToLeaf({ahead + leaf[0]})")
            wanted = read.slots[0][0][min(max(y, 0), read.height - 1) * read.width + min(max(x, 0), read.width - 1)]
            checks.near("a sample of the source of a tile", source_sample(browser, leaf[3:5]), wanted / (1 << plan.depth - 8), 1)
        ahead += len(plan.leaves)
    checks.true("some lead past their tile", past > 0)
    browser.value("view.setLayer('source', false), view.setLocked(false), view.setComponent('RGB')")
