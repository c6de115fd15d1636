"""Keys, the mouse, windows of all sizes, both schemes, and two of the device's pixels in one."""
import math

from checks import drawn, pixels, place_in_window


def look_at_keys(browser, checks, plan):
    """The cursor, the list of leaves and the search, by keys."""
    browser.value("view.setLocked(false), view.fitFrame(), view.moveTo(0, 0), document.getElementById('picture').focus()")
    for _ in range(3):
        browser.key("ArrowRight")
    browser.key("ArrowDown", modifiers=8)
    checks.same("the cursor by arrows", browser.json("[view.state.x, view.state.y]"), [3, 16])
    zoom = browser.value("view.state.zoom")
    browser.key("+", "+")
    checks.true("zoom by its key", browser.value("view.state.zoom") > zoom)
    browser.key("0", "0")
    checks.same("the whole frame by its key", browser.value("view.state.zoom"), zoom)
    browser.key("n", "n")
    checks.same("the next leaf by its key", browser.text("place").split(",")[0], "leaf 1")
    browser.key("p", "p")
    browser.key("p", "p")
    checks.same("the one before the first is the last", browser.text("place").split(",")[0], f"leaf {len(plan.leaves) - 1}")
    browser.key("/", "/")
    for letter in "paeth 64x64":
        browser.key(letter, letter)
    wanted = [leaf[0] for leaf in plan.leaves if (leaf[5] == 12 or leaf[7] == 12) and leaf[3:5] == [64, 64]]
    checks.same("leaves that a search finds", browser.json("view.state.found"), wanted)
    browser.key("Enter")
    checks.same("the first that is found", browser.value("view.leafAt(view.state.x, view.state.y).number"), wanted[0])
    browser.value("view.setSearch('17'), view.moveToLeaf(view.state.found[0])")
    checks.same("a leaf by its number", browser.value("view.leafAt(view.state.x, view.state.y).number"), 17)
    browser.value("view.setSearch(''), document.getElementById('search').value = ''")
    browser.key("Escape")
    checks.same("back to the picture", browser.value("document.activeElement.id"), "picture")


def look_at_pointer(browser, checks, plan, planes):
    """The cursor follows the mouse, until a click locks it and Escape lets it go."""
    browser.value("view.setLocked(false), view.fitFrame()")
    here, there = (131, 77), (400, 300)
    at = lambda x, y: f"leaf {plan.leaf_at(x, y)[0]}, sample at column {x}, row {y}"
    browser.mouse("mouseMoved", *place_in_window(browser, *here))
    checks.same("the place at the pointer", browser.text("place"), at(*here))
    checks.same("its triples", browser.text("triples").count("value"), sum(map(len, plan.leaf_at(*here)[11])))
    samples = plan.samples(planes)
    wanted = [str(samples[p][(here[1] >> (p > 0)) * plan.sides[p][0] + (here[0] >> (p > 0))]) for p in range(3)]
    checks.same("its samples", browser.json("[...document.querySelectorAll('#samples tr')][1].textContent"), "reconstruction" + "".join(wanted))
    row = browser.json("((r) => r && [r.textContent, r.getBoundingClientRect().top, document.getElementById('list').getBoundingClientRect().top])"
                       "(document.querySelector('#rows [aria-selected=true]'))")
    checks.true("the list follows", row and row[0].startswith(f"{plan.leaf_at(*here)[0]}  ") and row[1] >= row[2] - 18)
    browser.click(*place_in_window(browser, *here))
    browser.mouse("mouseMoved", *place_in_window(browser, *there))
    checks.same("a click locks the place", [browser.text("place"), browser.value("view.state.locked")], [at(*here), True])
    browser.click(*place_in_window(browser, *there))
    checks.same("another click locks another", browser.text("place"), at(*there))
    browser.key("Escape")
    browser.mouse("mouseMoved", *place_in_window(browser, *here))
    checks.same("Escape lets go", [browser.text("place"), browser.value("view.state.locked")], [at(*here), False])
    left, top, zoom = browser.json("[view.state.left, view.state.top, view.state.zoom]")
    browser.drag(200, 200, 60, 30)
    moved = browser.json("[view.state.left, view.state.top]")
    checks.true("a drag moves the picture", abs(left - moved[0] - 60 / zoom) < 1 and abs(top - moved[1] - 30 / zoom) < 1)
    checks.same("and locks nothing", browser.value("view.state.locked"), False)


def look_at_controls(browser, checks):
    """Keys go on working once a control was clicked."""
    browser.value("view.setLayer('map', true)")
    for control in ("layer-modes", "source-reconstruction", "component-Y", "matrix", "histogram"):
        box = browser.json(f"((e) => (e.scrollIntoView({{ block: 'center' }}), e.getBoundingClientRect()))"
                           f"(document.querySelector('#{control} button') || document.getElementById('{control}'))")
        if control == "matrix":
            browser.value("document.getElementById('matrix').focus()")
        else:
            browser.click(box["x"] + min(box["width"], 12) / 2, box["y"] + box["height"] / 2)
        checks.true(f"{control} has the focus", browser.value("document.activeElement !== document.getElementById('picture')"))
        before = browser.json("[view.state.zoom, view.leafAt(view.state.x, view.state.y).number]")
        browser.key("+", "+")
        browser.key("n", "n")
        after = browser.json("[view.state.zoom, view.leafAt(view.state.x, view.state.y).number]")
        checks.true(f"keys behind {control}", after[0] > before[0] and after[1] != before[1])
        browser.key("Escape")
    browser.value("view.setLayer('map', false), view.setLayer('modes', true), view.setSource('reconstruction'), view.setComponent('RGB'), view.setProperty('mode'), view.fitFrame()")


def look_at_wheel(browser, checks):
    """The wheel zooms by what it turned, round the place under it, and sideways it moves."""
    browser.value("view.setLocked(true), view.fitFrame()")
    for turned in (-100, -7, 53):
        left, top, zoom = browser.json("[view.state.left, view.state.top, view.state.zoom]")
        browser.wheel(250, 180, 0, turned)
        now = browser.json("[view.state.left, view.state.top, view.state.zoom]")
        checks.near(f"a wheel that turned {turned}", now[2] / zoom, math.exp(-turned * 0.002), 1e-6)
        checks.near("the place under it stays", now[0] + 250 / now[2], left + 250 / zoom, 1e-6)
        checks.near("in both directions", now[1] + 180 / now[2], top + 180 / zoom, 1e-6)
    left, top, zoom = browser.json("[view.state.left, view.state.top, view.state.zoom]")
    browser.wheel(250, 180, 40, 0)
    now = browser.json("[view.state.left, view.state.top, view.state.zoom]")
    checks.true("sideways it moves", abs(now[0] - left - 40 / zoom) < 1e-6 and now[1:] == [top, zoom])
    browser.value("view.setLocked(false), view.fitFrame()")


def look_at_windows(browser, checks):
    """In windows from 360 pixels on the picture keeps at least half, and nothing reaches past the side."""
    for width, height in ((360, 640), (360, 480), (500, 800), (780, 600), (781, 600), (1100, 700), (1900, 1000)):
        browser.window(width, height)
        drawn(browser)
        box = browser.json("document.querySelector('#picture').getBoundingClientRect()")
        checks.true(f"{width}x{height}: half is the picture's", box["width"] * box["height"] >= width * height / 2)
        checks.true(f"{width}x{height}: nothing reaches past the side", browser.value("document.documentElement.scrollWidth") <= width)
        sides = [round(box["width"]), round(box["height"])]
        checks.same(f"{width}x{height}: the picture is as large as its place", browser.json("[view.state.width, view.state.height]"), sides)
    browser.window(1100, 700)
    browser.value("view.fitFrame()")


def brightness(colour):
    """The relative luminance of a colour, as contrasts are reckoned by."""
    parts = [part / 255 / 12.92 if part <= 10 else ((part / 255 + 0.055) / 1.055) ** 2.4 for part in colour]
    return 0.2126 * parts[0] + 0.7152 * parts[1] + 0.0722 * parts[2]


def look_at_schemes(browser, checks):
    """Light and dark, as the reader prefers; letters are read on both."""
    grounds = {}
    for scheme in ("light", "dark"):
        browser.scheme(scheme)
        browser.value("view.fit({ x: -100, y: -100, width: 100, height: 100 }, 1)")
        grounds[scheme] = pixels(browser, [[5, 5]])[0]
        style = "getComputedStyle(document.querySelector('aside'))"
        ink, ground = (browser.json(f"{style}.{name}.match(/\\d+/g).slice(0, 3).map(Number)") for name in ("color", "backgroundColor"))
        bright, dark = sorted((brightness(ink), brightness(ground)), reverse=True)
        checks.true(f"{scheme}: letters are read", (bright + 0.05) / (dark + 0.05) > 7)
    checks.true("the ground of the picture too", brightness(grounds["light"]) > 0.5 > 0.1 > brightness(grounds["dark"]))
    browser.value("view.fitFrame()")


def look_at_scale(browser, checks):
    """With two of the device's pixels in one, marks keep their size and get finer."""
    script = "view.marks.clear(), view.setLocked(true), view.moveTo(8, 8), view.fit({ x: 0, y: 0, width: 128, height: 96 }, 1)"
    browser.value(script)
    drawn(browser)
    one = browser.json("[view.state.zoom, Math.max(...[...view.marks.values()].map((m) => m.height))]")
    browser.window(1100, 700, 2)
    browser.value(script)
    drawn(browser)
    two = browser.json("[view.state.zoom, Math.max(...[...view.marks.values()].map((m) => m.height))]")
    checks.same("a sample is as large", two[0], one[0])
    checks.same("a mark has twice the pixels", two[1], 2 * one[1])
    ratios = browser.json("((c) => [c.width / c.clientWidth, c.height / c.clientHeight])(document.getElementById('picture'))")
    checks.same("the picture has them", ratios, [2, 2])
    x, y = place_in_window(browser, 63.5, 72)
    row = pixels(browser, [[x + i / 2, y] for i in range(-8, 8)])
    checks.same("a line of two pixels has four", sum(r > 200 and g > 200 and b < 120 for r, g, b in row), 4)
    browser.window(1100, 700)
    browser.value("view.setLocked(false), view.fitFrame()")
