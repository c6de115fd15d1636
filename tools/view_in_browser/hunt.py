"""What somebody uses who hunts a mismatch: numbers of a block, the wipe, the worst leaves, the report, links; and what a page must look like."""
import math
import os
import re
import struct

from checks import FRAMES, drawn, pixels, place_in_window

DOCS = os.path.join(os.path.dirname(os.path.abspath(__file__)), "..", "..", "docs")
GRIDS = "Object.fromEntries(view.gridsOf(view.blockHere(), null))"
BOXES = "view.state.labels.map((l) => [l.left, l.top, l.left + l.width, l.top + l.height])"


def fits(browser, element):
    """Whether an element lies in the window as a whole."""
    return browser.value(f"""((b) => b.width > 0 && b.left >= 0 && b.top >= 0 && b.right <= innerWidth + 1 && b.bottom <= innerHeight + 1)(
      document.getElementById('{element}').getBoundingClientRect())""")


# ---- what a page looks like


def look_at_labels(browser, checks, name):
    """No label stands over another, from any distance; names are drawn from three times on, and no smaller than can be read."""
    browser.value("['transforms', 'chroma', 'coefficients', 'edge'].forEach((l) => view.setLayer(l, true)), view.setLocked(true)")
    for zoom in (0.8, 2.9, 3.1, 6, 12, 30):
        browser.value(f"view.moveTo(100, 60), view.fit({{ x: 60, y: 40, width: view.state.width / {zoom}, height: view.state.height / {zoom} }}, 1)")
        drawn(browser)
        boxes = browser.json(BOXES)
        over = sum(a[0] < b[2] and b[0] < a[2] and a[1] < b[3] and b[1] < a[3] for i, a in enumerate(boxes) for b in boxes[:i])
        checks.same(f"{name}: labels over others at zoom {zoom}", over, 0)
        checks.true(f"{name}: letters are no smaller than 9 pixels at zoom {zoom}", all(b[3] - b[1] >= 9 for b in boxes if zoom < 24))
    browser.value("['transforms', 'chroma', 'coefficients', 'edge', 'values'].forEach((l) => view.setLayer(l, false)), view.moveTo(0, 0)")
    browser.value("view.fit({ x: 60, y: 40, width: view.state.width / 2.9, height: view.state.height / 2.9 }, 1)")
    drawn(browser)
    checks.true(f"{name}: no names below three times", all(b[3] - b[1] == 20 for b in browser.json(BOXES)))
    browser.value("view.setLayer('values', true), view.setLocked(false), view.fitFrame()")


def look_at_borders(browser, checks, name, plan):
    """Lines of superblocks end with the frame."""
    browser.value("view.setLocked(true), view.moveTo(0, 0), view.setLayer('vectors', false), view.fit({ x: -20, y: -20, width: %d, height: %d }, 1)"
                  % (plan.width + 40, plan.height + 40))
    below = [place_in_window(browser, x, plan.height + 4) for x in range(0, plan.width, 64)]
    right = [place_in_window(browser, plan.width + 4, y) for y in range(0, plan.height, 64)]
    ground = pixels(browser, [place_in_window(browser, -10, -10)])[0]
    checks.same(f"{name}: no line past the frame", pixels(browser, below + right), len(below + right) * [ground])
    browser.value("view.setLayer('vectors', true), view.setLocked(false), view.fitFrame()")


def look_at_panel(browser, checks, name, plan):
    """The title, the range of colours, the hint of the search, names of slots; keys and legend without scrolling."""
    checks.true(f"{name}: the title", browser.value("document.title").startswith("Plan viewer"))
    checks.same(f"{name}: limited range is the default", browser.value("document.getElementById('matrix').value"), "BT.709, limited range")
    named = browser.json("view.frame.slots.map((slot) => [...document.querySelectorAll('#sources label')].some((l) => l.textContent.includes(`slot ${slot}`) "
                         "&& /all references|all but|LAST|GOLDEN|BWDREF|ALTREF/.test(l.textContent)))")
    held = browser.json("view.frame.slots.map((slot) => Boolean(view.plan.slots[slot]))")
    checks.same(f"{name}: slots have the names of references", named, held)
    checks.same(f"{name}: as many as the plan has", any(held), bool(plan.slots))
    for width, height in ((1280, 800), (360, 640)):
        browser.window(width, height)
        browser.value(FRAMES)
        room = browser.json("""((s) => { const c = document.createElement('canvas').getContext('2d'); c.font = getComputedStyle(s).font;
          return [c.measureText(s.placeholder).width, s.clientWidth - 12]; })(document.getElementById('search'))""")
        checks.true(f"{name}: the hint of the search has room at {width}x{height}", room[0] <= room[1])
        browser.value("view.setLayer('map', true)")
        checks.true(f"{name}: the legend is in a window of {width}x{height}", fits(browser, "classes"))
        browser.value("view.setLayer('map', false)")
        browser.key("?", "?")
        checks.true(f"{name}: so are the keys", fits(browser, "keys"))
        checks.true(f"{name}: all of them", browser.value("((e) => e.scrollHeight <= e.clientHeight + 1)(document.getElementById('keys'))"))
        browser.value("document.getElementById('keys').close()")
    browser.window(1100, 700)
    browser.value("view.fitFrame()")


def look_at_colours(browser, checks):
    """Modes from two references can be told apart in the map."""
    colours = browser.json("Array.from({ length: 13 }, (n, i) => view.modeColour(20 + i))")
    least = min(math.dist(a, b) for i, a in enumerate(colours) for b in colours[:i])
    checks.true(f"the colours of compound modes, {least:.0f} apart at least", least >= 40)


# ---- what a page is used for


def look_at_numbers(browser, checks, name, plan, planes, predictions):
    """The grids of a block: coefficients, prediction, what is added, and the result, of one scale."""
    browser.value("view.setComponent('Y'), view.setLayer('block', true)")
    samples, others = plan.samples(planes)[0], plan.samples(predictions)[0]
    for leaf in [leaf for leaf in plan.leaves if leaf[11][0]][::max(len(plan.leaves) // 12, 1)]:
        if leaf[1] >= plan.width or leaf[2] >= plan.height:
            continue
        browser.value(f"view.moveToLeaf({leaf[0]})")
        number, x, y, w, h = plan.blocks(leaf, 0)[0]
        rows = min(h, 32)
        wanted = [[0] * min(w, 32) for _ in range(rows)]
        for block, place, value in leaf[11][0]:
            if block == number:
                wanted[place % rows][place // rows] = value
        inside, before = plan.inside([samples], 0, x, y, w, h), plan.inside([others], 0, x, y, w, h)
        found = browser.json(GRIDS)
        checks.same(f"{name}: coefficients of leaf {leaf[0]}", found["coefficients"], wanted)
        checks.same(f"{name}: its result", sum(found["result"], []), inside)
        checks.same(f"{name}: its prediction", sum(found["prediction"], []), before)
        checks.same(f"{name}: its residual", sum(found["residual"], []), [a - b for a, b in zip(inside, before)])
        widths = browser.json("[...document.querySelectorAll('#grids pre')].map((p) => p.textContent.split('\\n')[0].length / p.textContent.split('\\n')[0].match(/\\S+/g).length)")
        checks.same(f"{name}: all grids have one scale", len(set(widths[:1] + widths[-1:])), 1)
    checks.true(f"{name}: the grids are in the window", fits(browser, "block"))
    browser.value("view.setLayer('block', false), view.setComponent('RGB'), view.setLocked(false)")


def look_at_edge_layer(browser, checks, leaf):
    """The edge is drawn around the block, with what the sample at the cursor reads."""
    browser.value(f"view.setComponent('Y'), view.moveToLeaf({leaf}), view.fit({{ ...view.leaves[{leaf}], width: 16, height: 12 }}, 1.5)")
    before = drawn(browser)
    browser.key("i", "i")
    around = drawn(browser)
    checks.true("the edge is drawn", around != before)
    browser.value("view.moveTo(view.state.x + 2, view.state.y + 3)")
    checks.true("and what another sample reads", drawn(browser) != around)
    browser.key("i", "i")
    browser.value("view.setComponent('RGB'), view.setLocked(false), view.fitFrame()")


def look_at_wipe(browser, checks):
    """Left of a line the given samples, right of it the reconstruction."""
    browser.value("view.setComponent('Y'), view.setSource('reconstruction'), ['differences', 'values', 'leaves', 'superblocks', 'vectors', 'modes'].forEach("
                  "(l) => view.setLayer(l, false)), view.setLocked(true), view.moveTo(0, 0), view.fit({ x: 192, y: 94, width: 18, height: 14 }, 1)")
    place = place_in_window(browser, 200.2, 100.2)
    defined = pixels(browser, [place])[0]
    browser.key("w", "w")
    browser.value("view.setDivide(1)")
    given = pixels(browser, [place])[0]
    values = browser.json("['given', 'reconstruction'].map((s) => view.sample(s, 0, 200, 100) / (1 << view.frame.depth - 8))")
    checks.true("left of the wipe are given samples", abs(given[0] - values[0]) <= 1)
    checks.true("without it those of the plan", abs(defined[0] - values[1]) <= 1)
    browser.value("view.setDivide(0)")
    checks.same("right of the wipe too", pixels(browser, [place])[0], defined)
    browser.key("w", "w")
    checks.same("the key switches it off", browser.value("view.state.second"), None)
    browser.value("['differences', 'values', 'leaves', 'superblocks', 'vectors', 'modes'].forEach((l) => view.setLayer(l, true)), view.setDivide(0.5), "
                  "view.setComponent('RGB'), view.setLocked(false), view.fitFrame()")


def look_at_ranks(browser, checks, plan, planes, given):
    """Leaves by their greatest difference, and the ratio of each plane."""
    ours, theirs = plan.samples(planes), plan.samples(given)
    squares = [sum((a - b) ** 2 for a, b in zip(*both)) for both in zip(ours, theirs)]
    for p, square in enumerate(squares):
        wanted = 10 * math.log10(((1 << plan.depth) - 1) ** 2 * len(ours[p]) / square) if square else None
        found = browser.value(f"view.signalToNoise({p})")
        checks.true(f"the ratio of plane {p}", found is None if wanted is None else abs(found - wanted) < 1e-9)
        checks.true("the page shows it", "YUV"[p] + (" equal" if wanted is None else f" {wanted:.2f} dB") in browser.text("differing"))
    worst = browser.json("view.differences.worst.map((w) => [w.leaf, w.greatest])")
    checks.same("the worst leaves first", worst, sorted(worst, key=lambda w: -w[1]))
    checks.same("the greatest of all", worst[0][1], browser.value("view.differences.most"))
    browser.value("document.querySelector('#worst button').click()")
    checks.same("a press goes there", browser.value("view.leafAt(view.state.x, view.state.y).number"), worst[0][0])
    at = browser.json("[view.state.x, view.state.y]")
    first = browser.json(f"view.differences.ofLeaf.get({worst[0][0]})[0]")
    shift = first["plane"] > 0
    checks.same("to its first difference", at, [first["column"] << shift, first["row"] << shift])


def look_at_report(browser, checks):
    """The report names frame, leaf, place, mode and both values, and gets into the clipboard."""
    browser.call("Browser.grantPermissions", permissions=["clipboardReadWrite", "clipboardSanitizedWrite"])
    browser.value("view.moveTo(200, 100), document.getElementById('copied').textContent = ''")
    browser.key("r", "r")
    text = browser.value("view.reportText()")
    given, defined = browser.json("['given', 'reconstruction'].map((s) => view.sample(s, 0, 200, 100))")
    number = browser.value("view.leafAt(200, 100).number")
    for part in (f"leaf {number} of", "sample: column 200, row 100", "luma mode: ", "512x512, 10 bits", f"given {given}", f"reconstruction {defined}", "address: #frame=0"):
        checks.true(f"the report has {part!r}", part in text)
    checks.same("it is shown", browser.value("document.getElementById('report').value"), text)
    browser.value(FRAMES)
    checks.same("it is in the clipboard", browser.value("navigator.clipboard.readText()"), text)
    checks.same("and the page says so", browser.text("copied"), "copied")
    browser.value("document.getElementById('report').hidden = true, document.getElementById('picture').focus()")


def look_at_address(browser, checks, path, frame=0):
    """What is shown stands in the address, and opens again from there; what is wrong there changes nothing."""
    parts = f"view.setFrame({frame}), view.setSource('reconstruction'), view.setComponent('V'), view.setLayer('transforms', true), view.setLayer('modes', false), "
    browser.value(parts + "view.fit({ x: 90, y: 70, width: 30, height: 20 }, 1), view.moveTo(101, 77), view.setLocked(true)")
    state = "[view.state.frame, view.state.x, view.state.y, view.state.locked, view.state.component, view.state.source.name, view.layers.transforms, view.layers.modes]"
    place = "[view.state.zoom, view.state.left, view.state.top]"
    wanted, there = browser.json(state), browser.json(place)
    browser.value("new Promise((done) => setTimeout(() => done(true), 600))")
    address = browser.value("window.location.hash")
    checks.same("the address has what is shown", address, browser.value("view.addressOf()"))
    browser.open(path, address)
    checks.same("a link leads there", browser.json(state), wanted)
    checks.true("to the same place", all(abs(a - b) < 0.02 for a, b in zip(browser.json(place), there)))
    browser.open(path, "#frame=-3&x=1e9&y=abc&zoom=NaN&middle=1,Infinity&samples=<b>&component=Q&layers=nonsense")
    checks.same("nonsense changes nothing", browser.json("[view.state.frame, view.state.x, view.state.y, view.state.component]"), [0, 0, 0, "RGB"])
    checks.same("and raises nothing", browser.faults(), [])
    browser.open(path)


def look_at_definitions(browser, checks, path):
    """TRUSTED prints each file of definitions that a leaf rests on, and a page in a folder `out` links to its chapter."""
    with open(os.path.join(DOCS, "TRUSTED.md"), encoding="utf8") as file:
        text = file.read()
    sections = browser.json("[...new Set(view.leaves.flatMap((l) => view.sectionsOf(l)))]")
    for section in sections:
        checks.true(f"TRUSTED prints {section}", f"[{section}]" in text)
    browser.value("view.moveToLeaf(0)")
    checks.true("the leaf names them", "TRUSTED: " in browser.text("fields"))
    checks.same("there is no link that leads nowhere", browser.value("document.querySelectorAll('#fields a').length"), 0)
    folder = os.path.join(os.path.dirname(path), "out")
    os.makedirs(folder, exist_ok=True)
    moved = os.path.join(folder, os.path.basename(path))
    with open(path, "rb") as page, open(moved, "wb") as copy:
        copy.write(page.read())
    browser.open(moved)
    links = browser.json("[...document.querySelectorAll('#fields a')].map((a) => a.getAttribute('href'))")
    chapters = {heading.lower().replace(".", "").replace(" ", "-") for heading in re.findall("^## (.*)", text, re.M)}
    checks.true("in a clone it links to chapters", links and all(link in {"../docs/TRUSTED.md#" + it for it in chapters} for link in links))
    browser.open(path)
