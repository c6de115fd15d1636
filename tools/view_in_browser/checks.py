"""What all looks at a page share."""
import json

# A whole frame has been drawn since, and the picture as it stands.
FRAMES = "new Promise((done) => requestAnimationFrame(() => requestAnimationFrame(() => done(true))))"
PICTURE = "document.getElementById('picture').toDataURL()"


class Checks:
    def __init__(self):
        self.passed, self.failed, self.skipped = 0, 0, 0

    def __str__(self):
        return f"{self.passed} passed, {self.failed} failed" + f", {self.skipped} skipped" * (self.skipped > 0)

    def skip(self, name, why):
        self.skipped += 1
        print(f"SKIPPED {name}: {why}", flush=True)

    def same(self, name, found, wanted):
        if found == wanted:
            self.passed += 1
        else:
            self.failed += 1
            print(f"FAILED {name}: {str(found)[:300]} and not {str(wanted)[:300]}", flush=True)

    def true(self, name, found):
        self.same(name, bool(found), True)

    def near(self, name, found, wanted, most):
        """Numbers that differ by so much at most."""
        if abs(found - wanted) <= most:
            self.passed += 1
        else:
            self.same(name, found, wanted)


def drawn(browser):
    """The picture, once it is drawn."""
    browser.value(FRAMES)
    return browser.value(PICTURE)


def pixels(browser, places):
    """The colours that the picture in the window has at places in CSS pixels."""
    browser.value(FRAMES)
    return browser.json(f"""((context) => {json.dumps(places)}.map(([x, y]) =>
      Array.from(context.getImageData(Math.floor(x * view.state.scale), Math.floor(y * view.state.scale), 1, 1).data).slice(0, 3)))(
      document.getElementById('picture').getContext('2d'))""")


def place_in_window(browser, x, y):
    """Where the middle of a luma sample is in the window."""
    left, top, zoom = browser.json("[view.state.left, view.state.top, view.state.zoom]")
    return (x + 0.5 - left) * zoom, (y + 0.5 - top) * zoom
