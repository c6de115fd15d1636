"""What is shown of a page: layers, components, gains, references, maps, marks that are many."""
import time

from checks import drawn, pixels, place_in_window


def look_at_layers(browser, checks):
    """Each layer by its key and by its switch."""
    browser.value("view.fit({ x: 288, y: 64, width: 96, height: 80 }, 1.1), view.moveTo(360, 100)")
    hidden = "['source', 'block'].map((id) => document.getElementById(id).hidden).join()"
    shown = lambda: drawn(browser) + browser.value(hidden)
    for layer, key in browser.json("view.layersHere.map((l) => [l.id, l.key])"):
        if layer == "values":
            browser.value("view.fit({ x: 296, y: 96, width: 24, height: 20 }, 1)")
        if layer == "edge":
            browser.value("view.moveToLeaf(view.leaves.find((l) => !l.motions).number), view.fitLeaf()")
        before, on = shown(), browser.value(f"view.layers.{layer}")
        browser.key(key, key)
        between = shown()
        checks.same(f"layer {layer} by its key", browser.json(f"[view.layers.{layer}, document.getElementById('layer-{layer}').checked]"), 2 * [not on])
        checks.true(f"layer {layer} is drawn", before != between)
        browser.value(f"document.getElementById('layer-{layer}').click()")
        checks.true(f"layer {layer} by its switch", shown() == before)
    browser.value("view.setLocked(false)")


def look_at_components(browser, checks, plan):
    """The samples and the components that are shown, by their keys, and their colours."""
    for component in ("Y", "U", "V", "RGB"):
        browser.key("c", "c")
        checks.same("component by its key", browser.value("view.state.component"), component)
    for source in ("prediction", "residual", "slot 0", "reconstruction"):
        browser.key("s", "s")
        checks.same("samples by their key", browser.value("view.state.source.name"), source)
    x, y = 300, 100
    for source in ("reconstruction", "slot 0"):
        browser.value(f"view.setSource('{source}')")
        for p, component in enumerate("YUV"):
            browser.value(f"view.setComponent('{component}')")
            across, down = (x, y) if p == 0 else (x >> plan.halved[0], y >> plan.halved[1])
            value = browser.value(f"view.sample('{source}', {p}, {across}, {down})")
            checks.near(f"{component} of {source} in grey", browser.value(f"view.pixel({x}, {y})[0]"), value / (1 << plan.depth - 8), 1)
    browser.value("view.setSource('reconstruction'), view.setComponent('RGB')")
    luma, u, v = (browser.value(f"view.sample('reconstruction', {p}, {300 >> (p > 0)}, {100 >> (p > 0)})") / 4 for p in range(3))
    luma, u, v = (luma - 16) * 255 / 219, (u - 128) * 255 / 224, (v - 128) * 255 / 224
    wanted = [luma + 1.5748 * v, luma - 0.18732 * u - 0.46812 * v, luma + 1.8556 * u]
    found = browser.json("view.pixel(300, 100)")
    checks.true("RGB by BT.709", all(abs(min(max(w, 0), 255) - f) <= 1 for w, f in zip(wanted, found)))
    checks.same("the matrix that is named", browser.value("document.getElementById('matrix').value"), "BT.709, limited range")


def look_at_gains(browser, checks, plan, planes, predictions):
    """Differences that are drawn stronger: by the greatest magnitude, and by a gain that is set."""
    changes = [a - b for a, b in zip(plan.samples(planes)[0], plan.samples(predictions)[0])]
    greatest, unit = max(map(abs, changes)), 1 << plan.depth - 8
    browser.value("view.setSource('residual'), view.setComponent('Y')")
    checks.near("the automatic gain", browser.value("view.gain()"), 127 * unit / greatest, 1e-9)
    checks.same("the greatest magnitude is white", browser.text("lightest"), f"+{greatest}")
    checks.true("the greatest magnitude is told", browser.text("strength").endswith(f"greatest {greatest}"))
    extreme = next(i for i, change in enumerate(changes) if abs(change) == greatest)
    places = [extreme] + [i for i, change in enumerate(changes) if change][::max(len(changes) // 40, 1)][:40]
    for gain in ("automatic", 1, 16, 64):
        browser.value(f"view.setGain({gain!r})")
        factor = 127 * unit / greatest if gain == "automatic" else gain
        for i in places:
            wanted = min(max(128 + changes[i] * factor / unit, 0), 255)
            checks.near(f"a difference of {changes[i]} at gain {gain}", browser.value(f"view.pixel({i % plan.width}, {i // plan.width})[0]"), wanted, 1)
        checks.same("the gain that is named", browser.value("document.getElementById('gain').value"), str(gain))
    browser.key("g", "g")
    checks.same("the next gain by its key", browser.value("view.state.gain"), "automatic")
    browser.value("view.setSource('reconstruction')")
    checks.true("no scale for samples", browser.value("document.getElementById('gains').hidden"))
    browser.value("view.setComponent('RGB')")


def look_at_references(browser, checks, plan):
    """The source of a block from references, at its fraction of a sample, and vectors to a slot that is seen."""
    eighths = lambda value: f"{value // 8} + {value % 8}/8" if value % 8 else str(value // 8)
    names = ["", "LAST", "LAST2", "LAST3", "GOLDEN", "BWDREF", "ALTREF2", "ALTREF"]
    browser.value("view.setComponent('Y'), view.setLayer('source', true)")
    for leaf in [leaf for leaf in plan.leaves if leaf[9]][::17]:
        browser.value(f"view.moveToLeaf({leaf[0]})")
        captions = browser.json("[...document.querySelectorAll('#source figcaption')].map((c) => c.textContent)")
        slots = browser.json("view.frame.slots")
        wanted = [f"{names[m]}, slot {slots[m - 1]}: from column {eighths(8 * leaf[1] + column)}, row {eighths(8 * leaf[2] + row)}"
                  for m, row, column in leaf[9]]
        checks.same("the source that is named", captions, wanted)
        reference, row, column = leaf[9][0]
        # The sample at the middle of the block, in a figure with three more before it.
        x, y = (8 * leaf[1] + column) // 8 + leaf[3] // 2, (8 * leaf[2] + row) // 8 + leaf[4] // 2
        at = min(max(y, 0), plan.height - 1) * plan.width + min(max(x, 0), plan.width - 1)
        zoom = 200 / (max(leaf[3], leaf[4]) + 8)
        places = int((3 + leaf[3] // 2 + 0.5) * zoom), int((3 + leaf[4] // 2 + 0.5) * zoom)
        found = browser.value(f"document.querySelector('#source canvas').getContext('2d').getImageData({places[0]}, {places[1]}, 1, 1).data[0]")
        checks.near("a sample of the source", found, plan.slots[slots[reference - 1]][0][at] / (1 << plan.depth - 8), 1)
    intra = next(leaf for leaf in plan.leaves if not leaf[9])
    browser.value(f"view.moveToLeaf({intra[0]})")
    checks.true("no source of a leaf without references", browser.value("document.getElementById('source').hidden"))
    browser.value("view.setLayer('source', false), view.setComponent('RGB')")
    inter = next(leaf for leaf in plan.leaves if leaf[9] and leaf[3] >= 32 and max(map(abs, leaf[9][0][1:])) > 40)
    browser.value(f"view.moveToLeaf({inter[0]}), view.fitLeaf()")
    with_vectors = drawn(browser)
    browser.value("view.setLayer('vectors', false)")
    checks.true("the place of the source is drawn", drawn(browser) != with_vectors)
    browser.value("view.setLayer('vectors', true)")


def look_at_maps(browser, checks, plan):
    """The map of leaves, its legend, and classes that filter the list."""
    browser.value("view.setProperty('mode'), view.fitFrame()")
    checks.same("rows of the legend", browser.value("document.querySelectorAll('#histogram button').length"), len({leaf[5] for leaf in plan.leaves}))
    before = drawn(browser)
    browser.key("m", "m")
    by_mode = drawn(browser)
    browser.key("h", "h")
    checks.same("the next property by its key", browser.value("view.state.property.id"), "size")
    checks.true("a map of each property", len({before, by_mode, drawn(browser)}) == 3)
    leaf = max(plan.leaves, key=plan.luma)
    number = leaf[3] * leaf[4] * 256 + leaf[3]
    browser.value(f"[...document.querySelectorAll('#histogram button')].find((b) => b.dataset.number === '{number}').click()")
    wanted = [other[0] for other in plan.leaves if other[3:5] == leaf[3:5]]
    checks.same("a class that is pressed is listed", browser.json("view.state.found"), wanted)
    pressed = browser.json("[...document.querySelectorAll('#histogram button[aria-pressed=true]')].map((b) => b.textContent.trim())")
    checks.same("and is marked as pressed", pressed, [f"{leaf[3]}x{leaf[4]}"])
    browser.value("view.setSearch('paeth')")
    narrower = [other[0] for other in plan.leaves if other[3:5] == leaf[3:5] and 12 in (other[5], other[7])]
    checks.same("and searched through", browser.json("view.state.found"), narrower)
    browser.value(f"view.setSearch(''), view.chooseClass({number})")
    checks.same("pressed again it is let go", browser.value("view.state.found"), None)
    style = browser.value(f"document.querySelector('#histogram button[data-number=\"{number}\"] i').style.background")
    colour = [int(part) for part in style[style.index("(") + 1:-1].replace(",", " ").split()]
    x, y = leaf[1] + leaf[3] // 2 - 2, leaf[2] + leaf[4] // 4
    others = "['modes', 'vectors', 'leaves', 'superblocks', 'values'].forEach((l) => view.setLayer(l, %s)), "
    browser.value(others % "false" + "view.setLocked(true), view.moveTo(0, 0), view.fitFrame()")
    tinted = pixels(browser, [place_in_window(browser, x, y)])[0]
    browser.key("m", "m")
    plain = pixels(browser, [place_in_window(browser, x, y)])[0]
    checks.true("the map has the legend's colours", all(abs(t - (170 * c + 85 * p) / 255) <= 2 for t, c, p in zip(tinted, colour, plain)))
    browser.value(others % "true" + "view.setLocked(false), view.setProperty('mode')")


def look_at_dense_layers(browser, checks):
    """A layer that has no room says so, and no longer once there is room."""
    browser.value("view.fitFrame(), view.setLayer('values', true)")
    drawn(browser)
    checks.true("sample values have no room from far", "sample values" in browser.text("dense"))
    browser.value("view.fit({ x: 360, y: 100, width: 8, height: 6 }, 1)")
    drawn(browser)
    checks.same("from near all have room", browser.text("dense"), "")


MOVING = """(async () => {
  const times = [];
  view.%s;
  for (let i = 0; i < 60; i++) {
    view.state.left += 3 / view.state.zoom;
    view.state.top += 2 / view.state.zoom;
    const begun = performance.now();
    view.draw();
    document.getElementById('picture').getContext('2d').getImageData(0, 0, 1, 1);
    times.push(performance.now() - begun);
    await new Promise((done) => setTimeout(done, 0));
  }
  times.sort((a, b) => a - b);
  return times[54];
})()"""

DISTANCES = (("all of it", "fitFrame()"), ("a pixel a sample", "fit({ x: 100, y: 100, width: 1200, height: 800 }, 1)"),
             ("three pixels a sample", "fit({ x: 100, y: 100, width: 300, height: 240 }, 1)"), ("close", "fit({ x: 100, y: 100, width: 40, height: 30 }, 1)"))


def look_at_moves(browser, checks, name, most):
    """How long a frame takes while the picture moves, from four distances."""
    for distance, place in DISTANCES:
        begun = browser.processor_time()
        longest = browser.value(MOVING % place)
        worked = 1000 * (browser.processor_time() - begun) / 60
        print(f"{name}, {distance}: {worked:.1f} ms of processors a frame, nine of ten frames within {longest:.1f} ms", flush=True)
        checks.true(f"{name}, {distance}, moves without a stall", worked < most)


def look_at_search(browser, checks):
    begun = time.time()
    browser.value("view.setSearch('smooth 8x8')")
    checks.true("a search among 65536 leaves", time.time() - begun < 2)
    checks.same("65536 leaves", browser.value("view.leaves.length"), 65536)
    browser.value("view.setSearch('')")


def look_at_many_differences(browser, checks, plan, planes, given):
    """A trace that differs everywhere: tints from far, marks from near."""
    checks.same("all samples differ", browser.value("view.differences.count"), len(planes))
    checks.same("each leaf and plane is listed", browser.value("view.differences.list.length"), 3 * len(plan.leaves))
    samples, others = plan.samples(planes), plan.samples(given)
    for leaf in plan.leaves[::1 + len(plan.leaves) // 20]:
        greatest = 0
        for p, (width, _) in enumerate(plan.sides):
            shift = 1 if p else 0
            for y in range(leaf[2] >> shift, leaf[2] + leaf[4] >> shift):
                for x in range(leaf[1] >> shift, leaf[1] + leaf[3] >> shift):
                    greatest = max(greatest, abs(samples[p][y * width + x] - others[p][y * width + x]))
        checks.same("the greatest difference of a leaf", browser.value(f"view.differences.greatest[{leaf[0]}]"), greatest)
    browser.value("view.fitFrame()")
    with_tint = drawn(browser)
    checks.true("marks have no room from far", "differences" in browser.text("dense"))
    browser.value("view.setLayer('differences', false)")
    checks.true("leaves are tinted from far", drawn(browser) != with_tint)
    browser.value("view.fit({ x: 20, y: 20, width: 12, height: 9 }, 1), view.setLayer('differences', true)")
    with_marks = drawn(browser)
    checks.true("marks have room from near", "differences" not in browser.text("dense"))
    browser.value("view.setLayer('differences', false)")
    checks.true("samples are marked from near", drawn(browser) != with_marks)
    browser.value("view.setLayer('differences', true)")
