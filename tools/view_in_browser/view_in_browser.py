#!/usr/bin/env python3
"""Opens pages of `av1_view` in a headless Chromium, and checks their content.

    tools/view_in_browser/view_in_browser.py [--view PROGRAM] [--recon PROGRAM] [--tools PROGRAM] [--screenshots FOLDER] [--only WORD] [--small]

The default programs are what `rt run` builds in the folders `out` of `av1_view`, `av1_vectors` and `av1_tools`. Each page is opened. Before
that, it is compared byte by byte with the page that `view_template` puts together from the planes of `av1_vectors` and the page's own
predictions. The predictions are compared with what `av1_vectors` makes of plans without the coefficients that follow. What a page contains is
compared with a second reader of plans, `plans.py`. What it shows is checked by keys, by the mouse, in windows of all sizes, in the light and the
dark scheme, and at two device pixels for each CSS pixel.

`--view none` puts the pages together here, with the frame without coefficients as predictions, and does not run av1_view. `--only` runs the groups
of steps whose name has the word. `--small` leaves out the large frames: 2048x2048, and a coded one of 1920x1080.

It needs `chromium` (a Debian package). It ends with 'N passed, M failed', and the status is 1 if M is not 0. The steps `av1_file` and `recorded` make
pages of AV1 files. They need `ffmpeg`, dav1d as `integrations/dav1d/source` builds it, and at their first run the network. If one of these is
missing, they say what to do, and the last line counts them as skipped. `--screenshots` leaves pictures of the pages in that folder.
"""
import argparse
import base64
import importlib.util
import json
import os
import re
import resource
import shlex
import subprocess
import sys
import tempfile
import time

HERE = os.path.dirname(os.path.abspath(__file__))
sys.path.insert(0, HERE)
import coded  # noqa: E402
import edges  # noqa: E402
import files  # noqa: E402
import hands  # noqa: E402
import held  # noqa: E402
import hunt  # noqa: E402
import near  # noqa: E402
import plans  # noqa: E402
import shown  # noqa: E402
import strips  # noqa: E402
from browser import Browser  # noqa: E402
from checks import FRAMES, Checks  # noqa: E402
from plans import Plan  # noqa: E402

CRATES = os.path.join(HERE, "..", "..", "crates")
SPEC = importlib.util.spec_from_file_location("view_template", os.path.join(HERE, "..", "view_template", "view_template.py"))
TEMPLATE = importlib.util.module_from_spec(SPEC)
SPEC.loader.exec_module(TEMPLATE)

# How long all processors may work for a frame together, in milliseconds, and a page take to open, in seconds, on a machine with other work.
MOST_FRAME = 60
MOST_OPENING = 15

# How large the page of a frame may be that an encoder coded, as a part of its plan and its planes in base64, and how long it may take to open.
MOST_SIZE = 1.5
MOST_RECORDED = 1

# How often the time of a reconstruction the page of the greatest trace may take.
MOST_SEEN = 2.5


class Pages:
    """Pages in a folder, of the programs that are asked for."""

    def __init__(self, options, checks, folder):
        self.options, self.checks, self.folder, self.kept = options, checks, folder, {}

    def run(self, program, words, data):
        return subprocess.run(shlex.split(program) + words, input=data, stdout=subprocess.PIPE, check=True).stdout

    def planes(self, plan):
        if plan not in self.kept:
            self.kept[plan] = self.run(self.options.recon, [], plan)
        return self.kept[plan]

    def write(self, name, data, trace=None):
        """Writes the page of a plan or of a trace, and tells its path, the planes and the predictions."""
        plan, planes, given = Plan(data), self.planes(data), b"" if trace is None else trace[8 + len(data):]
        row = plan.width * plan.bytes
        if self.options.view == "none":
            predictions = self.planes(plan.cut(0, 0))
            return self.keep(name, TEMPLATE.page(data, planes, TEMPLATE.packed(row, planes, predictions), given)), planes, predictions
        page = self.run(self.options.view, [] if trace is None else ["trace"], data if trace is None else trace)
        predictions = plan.unpacked(planes, base64.b64decode(re.search(b'id="predictions-bytes">([^<]*)<', page).group(1)))
        wanted = TEMPLATE.page(data, planes, TEMPLATE.packed(row, planes, predictions), given)
        self.checks.true(f"{name}: the page is the one that is wanted, byte by byte", page == wanted)
        held.look_at_predictions(self.checks, name, plan, planes, predictions, lambda cut: self.run(self.options.recon, [], cut))
        return self.keep(name, page), planes, predictions

    def write_file(self, name, word, data):
        """Writes the page of a sequence or of a grid, and tells its path and its planes."""
        planes = self.run(self.options.tools, [word], data)
        wanted = page = TEMPLATE.page(data, planes, b"")
        if self.options.view != "none":
            page = self.run(self.options.view, [word], data)
            self.checks.true(f"{name}: the page is the one that is wanted, byte by byte", page == wanted)
        return self.keep(name, page), planes

    def keep(self, name, page):
        path = os.path.join(self.folder, name + ".html")
        with open(path, "wb") as file:
            file.write(page)
        return path


def screenshot(browser, options, name, script):
    browser.value("document.querySelector('aside').scrollTop = 0, " + script)
    browser.value(FRAMES)
    if options.screenshots:
        browser.screenshot(os.path.join(options.screenshots, name + ".png"))


# ---- the pages


def worked(browser, pages, checks, options):
    """The plan that is worked out by hand."""
    with open(os.path.join(CRATES, "av1_vectors", "stdin"), "rb") as file:
        data = file.read()
    path, planes, predictions = pages.write("worked", data)
    held.look_at(browser, checks, "worked", path, Plan(data), planes, predictions)
    if options.view != "none":
        script = "[[3, 3], [4, 0], [0, 4], [7, 7]].map(([x, y]) => ['reconstruction', 'prediction', 'residual'].map((s) => view.sample(s, 0, x, y)))"
        checks.same("worked: a sample of each leaf, as it is predicted, and its residual", browser.json(script), [[131, 128, 3]] + 3 * [[131, 131, 0]])
    wanted = [{"block": 0, "place": 0, "value": 100, "column": 0, "row": 0}]
    checks.same("worked: a coefficient", browser.json("view.coefficients(0, 0)"), wanted)
    checks.same("worked: a pixel", browser.json("view.pixel(3, 3)"), [134, 134, 134, 255])
    decoded = browser.json("['', 'a', 'ab', 'abc', 'abcd'].map((text) => String.fromCharCode(...decoded(btoa(text))))")
    checks.same("worked: bytes are decoded where the browser has no call for it", decoded, ["", "a", "ab", "abc", "abcd"])
    checks.same("worked: faults of the page", browser.faults(), [])
    path, _, _ = pages.write("same", data, plans.trace_of(data, planes, []))
    browser.open(path)
    checks.same("a trace without a difference", browser.text("differing"), "The given samples equal those of the plan.")
    checks.same("same: faults of the page", browser.faults(), [])


def stripes(browser, pages, checks, options):
    """A plan of version 2, with stripes both ways."""
    data = plans.stripes()
    path, planes, predictions = pages.write("stripes", data)
    held.look_at(browser, checks, "stripes", path, Plan(data), planes, predictions)
    checks.true("stripes: weights are named", "CFL 5 -7" in browser.value("view.summaryOf(view.leaves[8])"))
    checks.same("stripes: faults of the page", browser.faults(), [])


def odd(browser, pages, checks, options):
    """Plans of version 3 whose sides are no multiples of 8: the picture ends at the last column and row that are shown."""
    for name, data in (("odd", plans.odd()), ("odd 4:2:2", plans.odd(61, 27, 10, 1)), ("odd 4:4:4", plans.odd(17, 9, 12, 2)), ("one sample", plans.odd(1, 1))):
        path, planes, predictions = pages.write(name.replace(" ", "_").replace(":", ""), data)
        held.look_at(browser, checks, name, path, Plan(data), planes, predictions)
        edges.look_at_sides(browser, checks, name, Plan(data), planes)
        edges.look_at_unseen(browser, checks, name, Plan(data))
        edges.look_at_map(browser, checks, name, Plan(data))
        edges.look_at_sources(browser, checks, name, Plan(data))
        edges.look_at_shared(browser, checks, name, Plan(data))
        checks.same(f"{name}: faults of the page", browser.faults(), [])


def departures(browser, pages, checks, options):
    """Leaves that depart from AV1, and plans that differ from these by a little and don't."""
    held.look_at_departures(browser, checks, pages, [
        ("sharp", plans.sharp(), [0]), ("smooth", plans.sharp(1), []), ("sharp without a fraction", plans.sharp(2, 16), []),
        ("sharp to the left", plans.sharp(2, -9), [0]), ("sharp as in AV1", plans.sharp(2, 8, 3), []), ("identity of 4", plans.identity(370703), [0]), ("small identity of 4", plans.identity(370702), []),
        ("negative identity of 4", plans.identity(-370704), [0]), ("small negative identity of 4", plans.identity(-370703), []),
        ("identity of columns", plans.identity(370703, 11), []), ("identity of 16", plans.identity(185352, 9, 16), [0]),
        ("small identity of 16", plans.identity(185351, 9, 16), []), ("identity of 16 as in AV1", plans.identity(185352, 9, 16, 3), []),
        ("lossless at 12 bits", plans.lossless(262144), [0]), ("small lossless at 12 bits", plans.lossless(262140), []),
        ("lossless at 10 bits", plans.lossless(65536, 10, 2), [0]), ("small lossless at 10 bits", plans.lossless(65532, 10, 2), []),
        ("lossless as in AV1", plans.lossless(262144, 12, 3), []), ("lossless at 8 bits", plans.lossless(32764, 8), []),
    ])


def five(browser, pages, checks, options):
    """The plan of the number 5: references, all modes and samples of 10 bits."""
    data = pages.run(options.recon, ["make", "5"], b"")
    plan = Plan(data)
    path, planes, predictions = pages.write("five", data)
    held.look_at(browser, checks, "make 5", path, plan, planes, predictions)
    shown.look_at_layers(browser, checks)
    shown.look_at_components(browser, checks, plan)
    shown.look_at_gains(browser, checks, plan, planes, predictions)
    shown.look_at_references(browser, checks, plan)
    shown.look_at_maps(browser, checks, plan)
    shown.look_at_dense_layers(browser, checks)
    checks.same("make 5, what is shown: faults of the page", browser.faults(), [])
    hands.look_at_keys(browser, checks, plan)
    hands.look_at_pointer(browser, checks, plan, planes)
    hands.look_at_controls(browser, checks)
    hands.look_at_wheel(browser, checks)
    hands.look_at_windows(browser, checks)
    hands.look_at_schemes(browser, checks)
    hands.look_at_scale(browser, checks)
    hunt.look_at_colours(browser, checks)
    near.look_at_edges(browser, checks, "make 5", plan, planes, predictions)
    hunt.look_at_edge_layer(browser, checks, next(leaf[0] for leaf in plan.leaves if 3 <= leaf[5] <= 8 and leaf[3] >= 16))
    hunt.look_at_numbers(browser, checks, "make 5", plan, planes, predictions)
    checks.same("make 5, by hand: faults of the page", browser.faults(), [])
    pictures_of_five(browser, options)


def pictures_of_five(browser, options):
    near = "view.moveTo(360, 120), view.fit({ x: 304, y: 64, width: 96, height: 80 }, 1.05)"
    screenshot(browser, options, "view_leaves", "['transforms', 'chroma', 'coefficients'].forEach((l) => view.setLayer(l, true)), " + near)
    browser.value("['transforms', 'chroma', 'coefficients'].forEach((l) => view.setLayer(l, false))")
    screenshot(browser, options, "view_source", "view.setLayer('source', true), view.moveToLeaf(68), view.fit({ x: 304, y: 64, width: 128, height: 96 }, 1.05)")
    browser.value("view.setLayer('source', false), view.setLocked(false)")
    browser.scheme("light")
    browser.window(390, 760)
    screenshot(browser, options, "view_narrow",
               "view.setComponent('Y'), view.moveToLeaf(68), view.fit({ x: 304, y: 64, width: 96, height: 96 }, 1.05)")
    browser.scheme("dark")
    browser.window(1100, 700)
    browser.value("view.setComponent('RGB'), view.setLocked(false)")


def photo(browser, pages, checks, options):
    """A photograph that rav1e coded, from two references."""
    with open(os.path.join(CRATES, "..", "demo", "photo.plan"), "rb") as file:
        data = file.read()
    plan = Plan(data)
    path, planes, predictions = pages.write("photo", data)
    held.look_at(browser, checks, "photo", path, plan, planes, predictions)
    hunt.look_at_panel(browser, checks, "photo", plan)
    hunt.look_at_borders(browser, checks, "photo", plan)
    hunt.look_at_labels(browser, checks, "photo")
    hunt.look_at_numbers(browser, checks, "photo", plan, planes, predictions)
    near.look_at_edges(browser, checks, "photo", plan, planes, predictions)
    hunt.look_at_definitions(browser, checks, path)
    hunt.look_at_address(browser, checks, path)
    checks.same("photo: faults of the page", browser.faults(), [])
    pictures_of_photo(browser, options)


def pictures_of_photo(browser, options):
    place = "view.moveTo(120, 90), view.fitFrame()"
    browser.window(1280, 800)
    screenshot(browser, options, "view_demo", place)
    screenshot(browser, options, "view_map", "view.setLayer('map', true), " + place)
    screenshot(browser, options, "view_residual", "['map', 'modes', 'vectors'].forEach((l) => view.setLayer(l, false)), view.setSource('residual'), "
               "view.setComponent('Y'), view.setGain(8), " + place)
    browser.window(1100, 700)


def trace(browser, pages, checks, options):
    """A trace of that plan, of which two samples differ."""
    data = pages.run(options.recon, ["make", "5"], b"")
    plan, planes = Plan(data), pages.planes(data)
    start = 2 * (100 * 512 + 200), 2 * (512 * 512 + 77 * 256 + 33)
    changed = plans.trace_of(data, planes, [(start[0], 1), (start[0] + 1, 1), (start[1], 2), (start[1] + 1, 1)])
    path, planes, predictions = pages.write("trace", data, changed)
    held.look_at(browser, checks, "trace", path, plan, planes, predictions)
    held.look_at_differences(browser, checks, plan, planes)
    hunt.look_at_panel(browser, checks, "trace", plan)
    hunt.look_at_labels(browser, checks, "trace")
    hunt.look_at_numbers(browser, checks, "trace", plan, planes, predictions)
    hunt.look_at_ranks(browser, checks, plan, planes, changed[8 + len(data):])
    hunt.look_at_report(browser, checks)
    hunt.look_at_wipe(browser, checks)
    near_by = "view.setComponent('Y'), view.moveTo(200, 100), view.fit({ x: 192, y: 94, width: 24, height: 18 }, 1)"
    browser.window(1280, 800)
    screenshot(browser, options, "view_trace", "view.setSecond('given'), " + near_by)
    screenshot(browser, options, "view_block", "view.setSecond(null), ['edge', 'block'].forEach((l) => view.setLayer(l, true)), view.moveToLeaf(339), "
               "view.moveTo(view.state.x + 3, view.state.y + 4), view.fit({ x: view.state.x - 10, y: view.state.y - 7, width: 24, height: 24 }, 1)")
    browser.window(1100, 700)
    checks.same("trace: faults of the page", browser.faults(), [])
    hunt.look_at_address(browser, checks, path)


def everywhere(browser, pages, checks, options):
    """A trace that differs everywhere, in 4,096 leaves of 8x8."""
    data = plans.great(512)
    plan, planes = Plan(data), pages.planes(data)
    differing = plans.differing_everywhere(data, planes)
    path, planes, predictions = pages.write("everywhere", data, differing)
    held.look_at(browser, checks, "everywhere", path, plan, planes, predictions)
    shown.look_at_many_differences(browser, checks, plan, planes, differing[8 + len(data):])
    shown.look_at_moves(browser, checks, "4,096 leaves that differ", MOST_FRAME)
    checks.same("everywhere: faults of the page", browser.faults(), [])


def sequence(browser, pages, checks, options):
    """A sequence of five frames, four of which are predicted from those before them."""
    data = files.moving(lambda number: pages.run(options.recon, ["make", str(number)], b""))
    path, all_planes = pages.write_file("sequence", "sequence", data)
    length = len(all_planes) // 5
    planes = [all_planes[length * i:length * (i + 1)] for i in range(5)]
    frames = list(files.frames_of(data, lambda number: planes[number]))
    browser.open(path)
    checks.same("sequence: its title", browser.value("document.title"), "Plan viewer: a sequence")
    strips.look_at_strip(browser, checks, frames, planes)
    strips.look_at_steps(browser, checks, frames, planes)
    strips.look_at_slots(browser, checks, frames, planes)
    strips.look_at_windows(browser, checks)
    screenshot(browser, options, "view_sequence", "view.setFrame(2), view.moveToLeaf(68), view.fitFrame()")
    hunt.look_at_panel(browser, checks, "sequence", Plan(frames[2].plan))
    hunt.look_at_labels(browser, checks, "sequence")
    hunt.look_at_address(browser, checks, path, 3)
    checks.same("sequence: faults of the page", browser.faults(), [])
    path, _ = pages.write_file("empty", "sequence", files.sequence([]))
    browser.open(path)
    checks.same("a sequence without frames says so", browser.text("frame"), "This sequence has no frames.")
    checks.same("empty: faults of the page", browser.faults(), [])
    flat = files.frame(1, files.leaves_of(plans.great(64)))
    path, _ = pages.write_file("long", "sequence", files.sequence(300 * [flat], 64, 64, 8))
    browser.open(path)
    strips.look_at_long_strip(browser, checks, 300)
    checks.same("long: faults of the page", browser.faults(), [])


def hidden(browser, pages, checks, options):
    """A sequence of which one frame is shown later, one again, and one never."""
    data = files.hidden()
    path, shown = pages.write_file("hidden", "sequence", data)
    planes = files.reconstructed(data, pages.planes)
    frames = list(files.frames_of(data, lambda number: planes[number]))
    checks.same("hidden: what is shown of it", shown, b"".join(held for frame, held in zip(frames, planes) if frame.shown))
    grey = len(planes[0]) // 2 * b"\0\2"
    browser.open(path)
    strips.look_at_strip(browser, checks, frames, [held if strips.is_held(frames, i) else grey for i, held in enumerate(planes)])
    checks.same("hidden: faults of the page", browser.faults(), [])
    if options.view != "none":
        again = files.shown_and_not([b"\1" + files.frame(2, files.leaves_of(plans.odd(depth=10, moves=False))), b"\2\5\0"])
        refused = subprocess.run(shlex.split(options.view) + ["sequence"], input=again, capture_output=True)
        checks.same("an empty slot that is to be shown again", (refused.returncode, refused.stdout, refused.stderr.splitlines()[:1]), (2, b"", [b"frame 1 empty slot"]))


def grid(browser, pages, checks, options):
    """Grids of tiles: the stored one, two of version 3, and two large tiles that read a reference."""
    with open(os.path.join(CRATES, "av1_tools", "stdin"), "rb") as file:
        stored = file.read()
    made = files.two_tiles(lambda number: pages.run(options.recon, ["make", str(number)], b""))
    for name, data in (("stored grid", stored), ("odd tiles", files.odd_tiles()), ("two tiles", made)):
        path, planes = pages.write_file(name.replace(" ", "_"), "tiles", data)
        tiles = files.tiles_of(data)
        browser.open(path)
        checks.same(f"{name}: its title", browser.value("document.title"), "Plan viewer: a grid of tiles")
        strips.look_at_grid(browser, checks, name, tiles, planes)
        if data[:4] == b"RTL2":
            strips.look_at_tile_sources(browser, checks, tiles, files.front_of(data))
        checks.same(f"{name}: faults of the page", browser.faults(), [])
    strips.look_at_borders(browser, checks, tiles)
    strips.look_at_tile_sources(browser, checks, tiles)
    screenshot(browser, options, "view_tiles", "view.moveTo(520, 100), view.fitFrame()")
    checks.same("two tiles: faults of the page", browser.faults(), [])


def great(browser, pages, checks, options):
    """A frame of 2048x2048 in leaves of 8x8, which has to open and to move without a stall."""
    data = plans.great(2048)
    path, planes, predictions = pages.write("great", data)
    opening = held.look_at(browser, checks, "2048x2048", path, Plan(data), planes, predictions)
    print(f"2048x2048 opens in {opening:.1f} s", flush=True)
    checks.true("2048x2048 opens", opening < MOST_OPENING)
    shown.look_at_moves(browser, checks, "2048x2048", MOST_FRAME)
    shown.look_at_search(browser, checks)
    checks.same("2048x2048: faults of the page", browser.faults(), [])


def least_time(call, clock=time.time, times=5):
    """How long a call takes by a clock, in seconds, on a machine with other work: the least of some times."""
    least = float("inf")
    for _ in range(times):
        begun = clock()
        call()
        least = min(clock() - begun, least)
    return least


def processors():
    """How long processors have worked for programs that have ended, in seconds."""
    used = resource.getrusage(resource.RUSAGE_CHILDREN)
    return used.ru_utime + used.ru_stime


def greatest_trace(browser, pages, checks, options):
    """A trace of that frame that differs everywhere. The program takes not much more than twice the time of its reconstruction."""
    data = plans.great(2048)
    planes = pages.planes(data)
    differing = plans.differing_everywhere(data, planes)
    if options.view != "none":
        reconstructed = least_time(lambda: pages.run(options.recon, [], data), processors)
        seen = least_time(lambda: pages.run(options.view, ["trace"], differing), processors)
        print(f"2048x2048 that differs everywhere: {1000 * reconstructed:.0f} ms of processors to reconstruct, {1000 * seen:.0f} ms to see", flush=True)
        checks.true("the time that its page takes", seen < MOST_SEEN * reconstructed)
    path, planes, predictions = pages.write("greatest", data, differing)
    begun = time.time()
    browser.open(path)
    print(f"its page opens in {time.time() - begun:.1f} s", flush=True)
    checks.same("each leaf and plane is listed", browser.value("view.differences.list.length"), 3 * 65536)
    shown.look_at_moves(browser, checks, "65,536 leaves that differ", MOST_FRAME)
    checks.same("greatest trace: faults of the page", browser.faults(), [])


def checked(pages, checks, options, name, words, first=False):
    """A stream, and what `check` says and writes of it, or None if that is skipped; with `first` only its first frame."""
    path, why = (None, "`--view none` does not run av1_view") if options.view == "none" else coded.stream(words)
    if why:
        checks.skip(name, why)
        return None, None
    path = coded.first_of(path, pages.folder) if first else path
    return path, coded.Checked(path, pages.folder, options)


def av1_file(browser, pages, checks, options):
    """A page that `integrations/dav1d/check --page` writes of an AV1 file."""
    stream, found = checked(pages, checks, options, "av1_file", coded.SMALL)
    if not found:
        return
    path, planes, predictions = pages.write("av1_file", found.plan, found.trace)
    with open(path, "rb") as wanted, open(found.page, "rb") as page:
        checks.true("AV1 file: check writes the page of the trace that it keeps", page.read() == wanted.read())
    checks.true("AV1 file: the decoder's planes are those of the plan", found.given == planes)
    held.look_at(browser, checks, "AV1 file", found.page, Plan(found.plan), planes, predictions)
    coded.look_at_front(browser, checks, stream, found)
    coded.look_at_click(browser, checks, found, planes, predictions)
    hunt.look_at_panel(browser, checks, "AV1 file", Plan(found.plan))
    hunt.look_at_numbers(browser, checks, "AV1 file", Plan(found.plan), planes, predictions)
    checks.same("AV1 file: faults of the page", browser.faults(), [])
    for width, height in ((1280, 800), (360, 640)):
        browser.window(width, height)
        screenshot(browser, options, f"view_file_{width}", "view.moveTo(90, 70), view.fitFrame()")
    browser.window(1100, 700)


def recorded(browser, pages, checks, options):
    """A frame of 1920x1080 that an encoder coded. Its page is not much larger than its plan and its planes, and opens at once."""
    _, found = checked(pages, checks, options, "recorded", coded.LARGE, first=True)
    if not found:
        return
    path, planes, predictions = pages.write("recorded", found.plan)
    plan, size = Plan(found.plan), os.path.getsize(path) / len(base64.b64encode(found.plan + planes))
    checks.same("recorded: the size of the frame", (plan.width, plan.height), (1920, 1080))
    held.look_at(browser, checks, "recorded", path, plan, planes, predictions)
    opening, traced = (least_time(lambda: browser.open(page)) for page in (path, found.page))
    print(f"recorded, {plan.width}x{plan.height}, {len(plan.leaves)} leaves: a page of {size:.2f} times plan and planes, which opens in {opening:.2f} s; "
          f"the page of its trace opens in {traced:.2f} s", flush=True)
    checks.true("recorded: the size of its page", size <= MOST_SIZE)
    checks.true("recorded: its page opens", opening < MOST_RECORDED)
    checks.same("recorded: no sample differs from the decoder's", browser.text("differing"), "The given samples equal those of the plan.")
    checks.same("recorded: faults of the page", browser.faults(), [])


SMALL = [worked, stripes, odd, departures, five, photo, trace, everywhere, sequence, hidden, grid, av1_file]
LARGE = [great, greatest_trace, recorded]


def main():
    parser = argparse.ArgumentParser()
    for name, crate in (("view", "av1_view"), ("recon", "av1_vectors"), ("tools", "av1_tools")):
        parser.add_argument("--" + name, default=os.path.join(CRATES, crate, "out", crate))
    parser.add_argument("--screenshots")
    parser.add_argument("--only", default="")
    parser.add_argument("--small", action="store_true")
    options, checks = parser.parse_args(), Checks()
    with tempfile.TemporaryDirectory() as folder, Browser(1100, 700) as browser:
        browser.scheme("dark")
        pages = Pages(options, checks, folder)
        for group in SMALL if options.small else SMALL + LARGE:
            if options.only in group.__name__:
                group(browser, pages, checks, options)
                print(f"{group.__name__}: {checks} so far", flush=True)
    print(checks)
    sys.exit(1 if checks.failed else 0)


if __name__ == "__main__":
    main()
