"""What pages show at the sides of a frame: its last column and row, leaves and places past them, and what vectors read there; and of chroma that leaves
share."""
from checks import drawn, pixels, place_in_window


def look_at_cursor(browser, checks, name, plan, planes, x, y):
    """What stands beside the cursor is the sample under the mouse."""
    browser.value("view.setLocked(false), view.fitFrame()")
    browser.mouse("mouseMoved", *place_in_window(browser, x, y))
    samples = plan.samples(planes)
    wanted = [str(samples[p][(y >> (p > 0 and plan.halved[1])) * plan.sides[p][0] + (x >> (p > 0 and plan.halved[0]))]) for p in range(3)]
    found = browser.json("[...document.querySelectorAll('#samples tr')][1].textContent")
    checks.same(f"{name}: the samples under the cursor", found, "reconstruction" + "".join(wanted))


def source_sample(browser, sides):
    """The sample at the middle of a block with these sides in luma, in the first figure of its source, in grey."""
    zoom = 200 / (max(sides) + 8)
    at = [int((3 + side // 2 + 0.5) * zoom) for side in sides]
    return browser.value(f"document.querySelector('#source canvas').getContext('2d').getImageData({at[0]}, {at[1]}, 1, 1).data[0]")


def look_at_sides(browser, checks, name, plan, planes):
    """The picture is cut to the sides that are shown, and the cursor gets as far as the last sample, and no further."""
    coded, last = plan.coded[0], (plan.width - 1, plan.height - 1)
    found = browser.json("[view.frame.width, view.frame.height, view.frame.coded.width, view.frame.coded.height, view.frame.widths, view.frame.heights]")
    checks.same(f"{name}: its sides", found, [plan.width, plan.height, *coded, [side[0] for side in plan.sides], [side[1] for side in plan.sides]])
    checks.true(f"{name}: the panel tells those that are shown", f"{plan.width}x{plan.height}, " in browser.text("frame"))
    for x, y in (last, (last[0], 0), (0, last[1])):
        look_at_cursor(browser, checks, name, plan, planes, x, y)
        checks.same(f"{name}: the place of the cursor", browser.json("[view.state.x, view.state.y]"), [x, y])
    for x, y in ((plan.width, 0), (0, plan.height), (plan.width, plan.height)):
        browser.value("view.moveTo(0, 0)")
        browser.mouse("mouseMoved", *place_in_window(browser, x, y))
        checks.same(f"{name}: past the sides the mouse finds nothing", browser.json("[view.state.x, view.state.y]"), [0, 0])
    browser.value(f"view.moveTo({plan.width + 5}, {plan.height + 5})")
    checks.same(f"{name}: the cursor stays in what is shown", browser.json("[view.state.x, view.state.y]"), list(last))
    look_at_ground(browser, checks, name, plan)


def look_at_ground(browser, checks, name, plan):
    """The last column and row are drawn in the colours of their samples, and behind them is the ground."""
    layers = browser.json("Object.keys(view.layers).filter((l) => view.layers[l])")
    browser.value(f"{layers}.forEach((l) => view.setLayer(l, false)), view.setLocked(true), view.moveTo(0, 0), "
                  f"view.fit({{ x: {plan.width} - 4, y: {plan.height} - 3, width: 16, height: 12 }}, 1)")
    last = plan.width - 1, plan.height - 1
    inside = [(last[0], last[1]), (last[0], max(last[1] - 1, 0)), (max(last[0] - 1, 0), last[1])]
    outside = [(plan.width, last[1]), (last[0], plan.height), (plan.width, plan.height), (plan.width + 6, plan.height + 6)]
    drawn_there = pixels(browser, [place_in_window(browser, x, y) for x, y in inside if (x, y) != (0, 0)])
    checks.same(f"{name}: the last samples", drawn_there, [browser.json(f"view.pixel({x}, {y})")[:3] for x, y in inside if (x, y) != (0, 0)])
    ground = pixels(browser, [place_in_window(browser, plan.width + 9, plan.height + 7)])[0]
    checks.same(f"{name}: behind them is the ground", pixels(browser, [place_in_window(browser, x, y) for x, y in outside]), len(outside) * [ground])
    browser.value(f"{layers}.forEach((l) => view.setLayer(l, true)), view.setLocked(false), view.fitFrame()")


def is_seen(plan, leaf):
    return leaf[1] < plan.width and leaf[2] < plan.height


def look_at_unseen(browser, checks, name, plan):
    """Leaves past what is shown are found like others, and the page says where they lie."""
    browser.value("view.setSearch(''), view.moveToLeaf(0), document.getElementById('picture').focus()")
    found = [0]
    for _ in plan.leaves[1:]:
        browser.key("n", "n")
        found.append(int(browser.text("place").split(",")[0].split()[1]))
    checks.same(f"{name}: from leaf to leaf by its key", found, [leaf[0] for leaf in plan.leaves])
    for leaf in plan.leaves:
        browser.value(f"view.moveToLeaf({leaf[0]})")
        if is_seen(plan, leaf):
            continue
        checks.true(f"{name}: a leaf past what is shown says so", browser.text("place").startswith(f"leaf {leaf[0]} past what is shown, "))
        checks.true(f"{name}: and what it is", f"{leaf[3]}x{leaf[4]} at column {leaf[1]}, row {leaf[2]}" in browser.text("fields"))
        browser.value("view.moveTo(0, 0)")
        checks.same(f"{name}: the cursor comes back from there", browser.text("place"), "leaf 0, sample at column 0, row 0")
    browser.value("view.setLocked(false)")


def look_at_map(browser, checks, name, plan):
    """The map has each leaf in the colour of its class, at its place."""
    layers = browser.json("Object.keys(view.layers).filter((l) => view.layers[l])")
    browser.value(f"{layers}.forEach((l) => view.setLayer(l, false)), view.setLocked(true), view.setProperty('size'), view.moveTo(0, 0), view.fitFrame()")
    seen = [leaf for leaf in plan.leaves[1:] if is_seen(plan, leaf)]
    middles = [(min(leaf[1] + 1, plan.width - 1), min(leaf[2] + 1, plan.height - 1)) for leaf in seen]
    places = [place_in_window(browser, x, y) for x, y in middles]
    plain = pixels(browser, places)
    browser.key("m", "m")
    tinted = pixels(browser, places)
    browser.key("m", "m")
    colours = {number: colour for number, colour in browser.json("view.classes('size').map((c) => [c.number, c.colour])")}
    wanted = [[(170 * c + 85 * p) / 255 for c, p in zip(colours[leaf[3] * leaf[4] * 256 + leaf[3]], before)] for leaf, before in zip(seen, plain)]
    others = sum(any(abs(w - f) > 2 for w, f in zip(*both)) for both in zip(wanted, tinted))
    checks.same(f"{name}: leaves of another colour in the map", others, 0)
    browser.value(f"{layers}.forEach((l) => view.setLayer(l, true)), view.setLocked(false), view.setProperty('mode')")


def look_at_sources(browser, checks, name, plan):
    """Past the sides that are shown vectors read the last samples of the slot."""
    browser.value("view.layers.source !== undefined && document.getElementById('layer-source') && view.setLayer('source', true), view.setComponent('Y')")
    past = 0
    for leaf in [leaf for leaf in plan.leaves if leaf[9]]:
        _, row, column = leaf[9][0]
        x, y = (8 * leaf[1] + column) // 8 + leaf[3] // 2, (8 * leaf[2] + row) // 8 + leaf[4] // 2
        past += not (0 <= x < plan.width and 0 <= y < plan.height)
        browser.value(f"view.moveToLeaf({leaf[0]})")
        wanted = plan.slots[0][0][min(max(y, 0), plan.height - 1) * plan.width + min(max(x, 0), plan.width - 1)]
        checks.near(f"{name}: a sample of the source", source_sample(browser, leaf[3:5]), wanted / (1 << plan.depth - 8), 1)
    checks.true(f"{name}: some lead past the sides", past > 0 or plan.width < 16)
    browser.value("document.getElementById('layer-source') && view.setLayer('source', false), view.setLocked(false), view.setComponent('RGB')")


# ---- chroma that leaves share


def shared_text(sharers):
    """What the page says of a block of chroma: by which leaf each part is predicted, or by which the whole, and why."""
    intra, last = [leaf[0] for leaf in sharers if not leaf[9]], sharers[-1]
    if intra:
        return f"whole by leaf {last[0]}" + (f", as leaf {intra[0]} is intra" if last[9] else "")
    (x, y), down, across = sharers[0][1:3], len({leaf[2] for leaf in sharers}) > 1, len({leaf[1] for leaf in sharers}) > 1
    names = [" ".join(down * ["upper" if leaf[2] == y else "lower"] + across * ["left" if leaf[1] == x else "right"]) for leaf in sharers]
    return ", ".join(f"{name} by leaf {leaf[0]}" for name, leaf in zip(names, sharers))


def look_at_shared(browser, checks, name, plan):
    """The words on chroma that leaves share, and the words that find it; each leaf's source in U is that of the part, or of the whole, that it predicts."""
    shared = [sharers for sharers in map(plan.sharers, plan.leaves) if len(sharers) > 1 and any(leaf[9] for leaf in sharers)]
    for sharers in shared:
        for leaf in sharers:
            browser.value(f"view.moveToLeaf({leaf[0]})")
            rows = dict(browser.json("[...document.querySelectorAll('#fields tr')].map((r) => [...r.children].map((c) => c.textContent))"))
            checks.same(f"{name}: who predicts the chroma of leaf {leaf[0]}", rows.get("chroma predicted"), shared_text(sharers))
            checks.same(f"{name}: who carries the chroma of leaf {leaf[0]}", rows.get("chroma"), f"carried by leaf {sharers[-1][0]}" if leaf != sharers[-1] else None)
            look_at_shared_source(browser, checks, name, plan, leaf, sharers)
    whole = [any(not leaf[9] for leaf in sharers) for sharers in shared]
    for word, wanted in (("parts", False), ("whole", True)):
        browser.value(f"view.setSearch('{word}')")
        found = {sharers[-1][0] for sharers, is_whole in zip(shared, whole) if is_whole == wanted and sharers[-1][9]}
        checks.same(f"{name}: blocks of chroma by a search", browser.json("view.state.found"), sorted(found))
    browser.value("view.setSearch(''), view.setLocked(false)")


def look_at_shared_source(browser, checks, name, plan, leaf, sharers):
    """A sample of the source of what a leaf predicts of U; none where a later leaf predicts it all."""
    predicts = all(other[9] for other in sharers) or leaf == sharers[-1]
    browser.value("view.setLayer('source', true), view.setComponent('U')")
    checks.same(f"{name}: a source of leaf {leaf[0]} in U", not browser.value("document.getElementById('source').hidden"), bool(leaf[9]) and predicts)
    if leaf[9] and predicts:
        x, y, w, h = leaf[1:5]
        if any(not other[9] for other in sharers):
            x, y = sharers[0][1:3]
            w, h = leaf[1] + w - x, leaf[2] + h - y
        _, row, column = leaf[9][0]
        middle = [(8 * at + eighths) // 8 + side // 2 for at, eighths, side in ((x, column, w), (y, row, h))]
        column, row = (min(max(at, 0), last - 1) >> halved for at, last, halved in zip(middle, (plan.width, plan.height), plan.halved))
        wanted = plan.slots[0][1][row * plan.sides[1][0] + column] / (1 << plan.depth - 8)
        checks.near(f"{name}: a sample of the source of leaf {leaf[0]} in U", source_sample(browser, (w, h)), wanted, 1)
    browser.value("view.setLayer('source', false), view.setComponent('RGB')")
