"""AV1 files of an encoder, the pages that `integrations/dav1d/check` writes of them, and what such a page has to hold."""
import glob
import os
import shutil
import struct
import subprocess
import sys

from checks import place_in_window
from plans import Plan

DAV1D = os.path.join(os.path.dirname(os.path.abspath(__file__)), "..", "..", "integrations", "dav1d")
OUT = os.path.join(DAV1D, "out", "view")
# Lines for `integrations/dav1d/streams`: a photograph in motion, in 10 frames of 256x192 and in 3 of 1920x1080.
SMALL, LARGE = "12 rav1e garden", "12 rav1e large --speed 8 --quantizer 80"


def stream(line):
    """The path of a stream, which is encoded if it isn't there, or None and a line that says what is missing and what to do."""
    if not glob.glob(os.path.join(DAV1D, "out", "dav1d-*", "build", "tools", "dav1d")):
        return None, "dav1d is not built; build it: integrations/dav1d/source"
    if not shutil.which("ffmpeg"):
        return None, "ffmpeg is missing; install it: apt-get install --no-install-recommends ffmpeg"
    path = os.path.join(OUT, "00-bookworm-{}-{}.ivf".format(*line.split()[1:3]))
    done = subprocess.run([os.path.join(DAV1D, "streams"), OUT, "--line", line], stdout=sys.stderr, check=False)
    if done.returncode or not os.path.isfile(path):
        return None, f"a stream could not be encoded; try: integrations/dav1d/streams integrations/dav1d/out/view --line '{line}'"
    return path, None


def front_of(path):
    """Width, height and number of frames, as the IVF file has them."""
    with open(path, "rb") as file:
        head = file.read(32)
    return struct.unpack_from("<HH", head, 12) + struct.unpack_from("<I", head, 24)


def first_of(path, folder):
    """A stream of the first temporal unit alone, which is a key frame."""
    with open(path, "rb") as file:
        data = file.read()
    first = os.path.join(folder, "first.ivf")
    with open(first, "wb") as file:
        file.write(data[:44 + struct.unpack_from("<I", data, 32)[0]])
    return first


class Checked:
    """What `check --page` says of a stream, the page that it writes, and the trace of the page's frame."""

    def __init__(self, path, folder, options):
        kept = os.path.join(folder, os.path.basename(path)[:-len(".ivf")])
        self.page = kept + ".html"
        env = {**os.environ, **{"AV1_" + name.upper(): script(folder, name, getattr(options, name)) for name in ("tools", "view")}}
        words = [os.path.join(DAV1D, "check"), "--page", self.page, "--keep", kept, path]
        done = subprocess.run(words, env=env, stdout=subprocess.PIPE, text=True, check=False)
        self.status, lines = done.returncode, done.stdout.splitlines()
        self.frames, self.line = [line for line in lines if line.startswith("frame ")], lines[-1]
        with open(max(glob.glob(os.path.join(kept, "????.trace"))), "rb") as file:
            self.trace = file.read()
        end = 8 + struct.unpack_from("<I", self.trace, 4)[0]
        self.plan, self.given = self.trace[8:end], self.trace[end:]


def script(folder, name, command):
    """A script that runs a program, which may be a command of several words."""
    path = os.path.join(folder, "av1_" + name)
    with open(path, "w", encoding="utf8") as file:
        file.write(f'#!/bin/sh\nexec {command} "$@"\n')
    os.chmod(path, 0o755)
    return path


def look_at_front(browser, checks, path, checked):
    """The frame's size, that there is one frame to choose, and that no sample differs from the decoder's."""
    width, height, count = front_of(path)
    checks.same("AV1 file: check finds no difference", (checked.status, checked.line.rsplit(": ", 1)[1]), (0, "all same"))
    checks.true("AV1 file: a line for each frame", len(checked.frames) >= count and all(line.endswith(": same") for line in checked.frames))
    checks.same("AV1 file: the page's title", browser.value("document.title"), "Plan viewer: a trace")
    checks.same("AV1 file: the size of the frame", browser.json("[view.frame.width, view.frame.height]"), [width, height])
    checks.true("AV1 file: the panel says it", f"{width}x{height}" in browser.text("frame"))
    checks.same("AV1 file: the frames to choose from", browser.value("view.file.count"), 1)
    checks.same("AV1 file: so there is no strip", browser.value("document.getElementById('strip').hidden"), True)
    checks.same("AV1 file: no sample differs", browser.text("differing"), "The given samples equal those of the plan.")


def look_at_click(browser, checks, checked, planes, predictions):
    """A click on a leaf shows its prediction, its residual and the decoder's value."""
    plan = Plan(checked.plan)
    held = [plan.samples(samples)[0] for samples in (planes, predictions, checked.given)]
    leaf = max((leaf for leaf in plan.leaves if leaf[11][0]), key=lambda leaf: len(leaf[11][0]))
    x, y = min(leaf[1] + leaf[3] // 2, plan.width - 1), min(leaf[2] + leaf[4] // 2, plan.height - 1)
    browser.value("view.setLocked(false), view.fitFrame()")
    browser.click(*place_in_window(browser, x, y))
    checks.same("AV1 file: the leaf under a click", browser.text("place"), f"leaf {leaf[0]}, sample at column {x}, row {y}")
    defined, predicted, given = (samples[y * plan.width + x] for samples in held)
    wanted = {"reconstruction": defined, "prediction": predicted, "residual": defined - predicted, "given": given, "given - defined": 0}
    rows = browser.json("[...document.querySelectorAll('#samples tr')].slice(1).map((r) => [...r.children].map((c) => c.textContent))")
    checks.same("AV1 file: its luma sample", {row[0]: int(row[1].replace("−", "-")) for row in rows if row[0] in wanted}, wanted)
    browser.value("view.setLocked(false)")
