"""A headless Chromium that takes commands through a pipe, by its DevTools protocol."""
import base64
import json
import os
import shutil
import subprocess
import tempfile

ARGUMENTS = ["--headless=new", "--no-sandbox", "--disable-gpu", "--hide-scrollbars", "--mute-audio", "--no-first-run",
             "--disable-background-networking", "--disable-component-update", "--remote-debugging-pipe", "--force-device-scale-factor=1"]


class Browser:
    """One browser with one page; use it in a `with`."""

    def __init__(self, width, height, program="chromium"):
        self.profile = tempfile.mkdtemp(prefix="view_in_browser.")
        to_browser, self.write_end = os.pipe()
        self.read_end, from_browser = os.pipe()

        def move():
            # The browser reads commands from descriptor 3 and writes answers to 4.
            low, high = os.dup(to_browser), os.dup(from_browser)
            os.dup2(low, 3)
            os.dup2(high, 4)

        command = [program, *ARGUMENTS, f"--user-data-dir={self.profile}", f"--window-size={width},{height}", "about:blank"]
        self.process = subprocess.Popen(command, preexec_fn=move, close_fds=False, stdin=subprocess.DEVNULL, stdout=subprocess.DEVNULL,
                                        stderr=subprocess.DEVNULL)
        os.close(to_browser)
        os.close(from_browser)
        self.rest, self.number, self.session, self.events = b"", 0, None, []
        target = self.call("Target.createTarget", url="about:blank")["targetId"]
        self.session = self.call("Target.attachToTarget", targetId=target, flatten=True)["sessionId"]
        for domain in ("Page", "Runtime", "Network"):
            self.call(domain + ".enable")
        self.window(width, height)

    def __enter__(self):
        return self

    def __exit__(self, *reason):
        self.process.terminate()
        self.process.wait()
        os.close(self.write_end)
        os.close(self.read_end)
        shutil.rmtree(self.profile, ignore_errors=True)

    def receive(self):
        while b"\0" not in self.rest:
            piece = os.read(self.read_end, 1 << 20)
            if not piece:
                raise RuntimeError("the browser ended")
            self.rest += piece
        message, self.rest = self.rest.split(b"\0", 1)
        return json.loads(message)

    def call(self, method, **parameters):
        """Does one command, and gives its result; what else the browser says meanwhile is kept in `events`."""
        self.number += 1
        message = {"id": self.number, "method": method, "params": parameters}
        if self.session:
            message["sessionId"] = self.session
        os.write(self.write_end, json.dumps(message).encode() + b"\0")
        while True:
            answer = self.receive()
            if answer.get("id") == self.number:
                if "error" in answer:
                    raise RuntimeError(f"{method}: {answer['error']}")
                return answer["result"]
            self.events.append(answer)

    def wait(self, method):
        while not any(event.get("method") == method for event in self.events):
            self.events.append(self.receive())

    def open(self, path, address=""):
        """Opens a page, at a part of its address that begins with `#`."""
        if address:
            self.events = []
            self.call("Page.navigate", url="about:blank")
            self.wait("Page.loadEventFired")
        self.events = []
        self.call("Page.navigate", url="file://" + os.path.abspath(path) + address)
        self.wait("Page.loadEventFired")

    def value(self, expression):
        """What an expression of the page comes to."""
        answer = self.call("Runtime.evaluate", expression=expression, returnByValue=True, awaitPromise=True)
        if "exceptionDetails" in answer:
            raise RuntimeError(f"{expression}: {answer['exceptionDetails']}")
        return answer["result"].get("value")

    def window(self, width, height, scale=1):
        """A window of this size in CSS pixels, on a device with so many pixels in each on a side."""
        self.call("Emulation.setDeviceMetricsOverride", width=width, height=height, deviceScaleFactor=scale, mobile=False)

    def scheme(self, name):
        """What the reader prefers, `light` or `dark`."""
        self.call("Emulation.setEmulatedMedia", features=[{"name": "prefers-color-scheme", "value": name}])

    def key(self, key, text="", modifiers=0):
        for kind in ("keyDown", "keyUp"):
            parameters = {"type": kind, "key": key, "modifiers": modifiers}
            if kind == "keyDown" and text:
                parameters["text"] = text
            self.call("Input.dispatchKeyEvent", **parameters)

    def mouse(self, kind, x, y, **more):
        self.call("Input.dispatchMouseEvent", type=kind, x=x, y=y, **more)

    def click(self, x, y):
        self.mouse("mouseMoved", x, y)
        self.mouse("mousePressed", x, y, button="left", buttons=1, clickCount=1)
        self.mouse("mouseReleased", x, y, button="left", buttons=0, clickCount=1)

    def drag(self, x, y, right, below):
        """Presses at a place, moves in three steps, and lets go."""
        self.mouse("mouseMoved", x, y)
        self.mouse("mousePressed", x, y, button="left", buttons=1, clickCount=1)
        for part in (1, 2, 3):
            self.mouse("mouseMoved", x + right * part / 3, y + below * part / 3, button="left", buttons=1)
        self.mouse("mouseReleased", x + right, y + below, button="left", buttons=0, clickCount=1)

    def wheel(self, x, y, right, below, modifiers=0):
        self.mouse("mouseWheel", x, y, deltaX=right, deltaY=below, modifiers=modifiers)

    def json(self, expression):
        """The same as a value of Python."""
        return json.loads(self.value(f"JSON.stringify({expression})"))

    def text(self, element):
        return self.value(f"document.getElementById('{element}').textContent")

    def processor_time(self):
        """How long processors have worked for the browser so far, in seconds, whatever else they did."""
        parents, times = {}, {}
        for name in filter(str.isdigit, os.listdir("/proc")):
            try:
                with open(f"/proc/{name}/stat", encoding="latin-1") as file:
                    fields = file.read().rsplit(")", 1)[1].split()
            except OSError:
                continue
            parents[int(name)], times[int(name)] = int(fields[1]), int(fields[11]) + int(fields[12])
        own = {self.process.pid}
        while True:
            more = {child for child, parent in parents.items() if parent in own} - own
            if not more:
                return sum(times.get(name, 0) for name in own) / os.sysconf("SC_CLK_TCK")
            own |= more

    def faults(self):
        """The page's own errors, and what it asked of the network beside its file."""
        names = ("Runtime.exceptionThrown",)
        faults = [event for event in self.events if event.get("method") in names]
        asked = [event["params"]["request"]["url"] for event in self.events if event.get("method") == "Network.requestWillBeSent"]
        return [str(fault["params"]["exceptionDetails"]) for fault in faults] + asked[1:]

    def screenshot(self, path):
        with open(path, "wb") as file:
            file.write(base64.b64decode(self.call("Page.captureScreenshot", format="png")["data"]))
