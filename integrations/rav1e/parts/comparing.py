"""Compares a recorded folder frame by frame, and reduces a difference to its first leaf."""
import dataclasses
import os
import subprocess

from tilgwaren import Planes, trace

from .departures import departure
from .recording import Again, Coded, events, read

# What a frame can be, in the order in which `compared.txt` counts them.
COUNTS = ("frames", "tiled", "again", "refused", "program", "encoder", "aomdec", "listed", "follow", "unlisted", "decoded", "other")


def unlisted(folder, counts):
    """How much of these counts isn't a departure that is listed.  dav1d's assembly may wrap where `--wrapping` drew coefficients."""
    wrapping = b"RECORD_WRAPPING" in read(folder, "settings.txt")
    return sum(counts[name] for name in ("refused", "program", "aomdec", "unlisted")) + (0 if wrapping else counts["other"])


class Comparison:
    """The comparison of one folder."""

    def __init__(self, folder, program, tools):
        self.folder, self.program, self.tools = folder, program, tools
        self.name = os.path.basename(os.path.normpath(folder))
        self.lines = []
        self.counts = dict.fromkeys(COUNTS, 0)
        self.sequence = "none"
        self.apart = False  # program and encoder differ somewhere, so their references do
        first = next(event for event in events(folder) if isinstance(event, Coded))
        self.dav1d, self.aomdec, self.shown = (first.with_chroma(read(folder, name + ".yuv")) for name in ("dav1d", "aomdec", "shown"))
        self.slots = [None] * 8  # by slot: the encoder's, dav1d's frame, both cropped
        self.planes = []
        self.other_decoders()

    def other_decoders(self):
        """Counts how often the clip was decoded, and how many decodings are other than those that are compared."""
        for line in read(self.folder, "decoders.txt").decode().splitlines():
            self.counts["decoded"] += 1
            if line.startswith("other "):
                self.counts["other"] += 1
                self.lines.append(f"{self.name}: {line}")

    def tell(self, frame, text):
        self.lines.append(f"{self.name} frame {frame}: {text}")

    def run(self):
        """Compares each frame, then the sequence."""
        last = None
        for event in events(self.folder):
            if isinstance(event, Again):
                self.again(event.slot)
            else:
                self.frame(event)
                last = event
        if self.dav1d or self.aomdec:
            self.tell("last", f"decoders have {len(self.dav1d)} and {len(self.aomdec)} bytes more")
            self.counts["unlisted"] += 1
        self.compare_sequence(last)

    def again(self, slot):
        """A frame that is shown again: both decoders write what they hold."""
        self.counts["again"] += 1
        ours, decoded = self.slots[slot]
        dav1d, aomdec = self.next_of_dav1d(len(ours)), self.next_of_aomdec(len(ours))
        if dav1d != decoded or aomdec != decoded:
            self.tell(f"again of slot {slot}", "decoders differ from what they held")
            self.counts["unlisted"] += 1

    def next_of_dav1d(self, size):
        taken, self.dav1d = self.dav1d[:size], self.dav1d[size:]
        return taken

    def next_of_aomdec(self, size):
        taken, self.aomdec = self.aomdec[:size], self.aomdec[size:]
        return taken

    def frame(self, frame):
        self.counts["frames"] += 1
        self.counts["tiled"] += frame.plan.is_grid
        made = self.reconstructed(frame.data)
        if made.returncode:
            self.tell(frame.number, "refused: " + made.stderr.decode().strip())
            self.counts["refused"] += 1
        elif made.stdout != frame.planes:
            self.differs(frame, "program", "program and encoder differ", self.first_leaf(frame, frame.data, frame.planes))
            self.apart = True
        self.planes.append(made.stdout)
        seen = frame.cropped(frame.filtered or frame.planes)
        dav1d = self.next_of_dav1d(len(seen))
        if frame.shown and self.next_of_aomdec(len(seen)) != dav1d:
            self.tell(frame.number, "dav1d and aomdec differ")
            self.counts["aomdec"] += 1
        if dav1d != seen:
            self.counts["encoder"] += 1
            self.explain(frame, seen, dav1d)
        for slot in range(8):
            if frame.refresh >> slot & 1:
                self.slots[slot] = (seen, dav1d)

    def explain(self, frame, seen, dav1d):
        """The decoder's planes are no encoder's: why, on the decoder's references."""
        plan = bytes(dataclasses.replace(frame.plan, references={slot: frame.padded(self.slots[slot][1]) for slot in frame.plan.references}))
        said = self.first_leaf(frame, plan, self.decoders_planes(frame, dav1d, plan))
        if said == "same":
            self.counts["follow"] += 1
        else:
            first = next((i for i, (a, b) in enumerate(zip(seen, dav1d)) if a != b), None)
            place = "lengths" if first is None else frame.true.position(first if frame.true.depth == 8 else first // 2)
            self.differs(frame, "unlisted", f"encoder and decoder differ first at {place}", said)

    def differs(self, frame, count, what, said):
        """Counts a difference whose first leaf was named: a listed departure, or one of `count`."""
        listed = self.leaf and departure(frame.plan, self.leaf)
        if listed:
            what, count = f"listed, {listed}: {what}", "listed"
        self.tell(frame.number, f"{what}: {said}")
        self.counts[count] += 1

    def decoders_planes(self, frame, dav1d, plan):
        """The decoder's planes; past the true sides, which a decoder doesn't write, those of the program."""
        if frame.whole():
            return dav1d
        made = self.reconstructed(plan).stdout
        planes = Planes.read(made, frame.plan.dimensions(), frame.plan.depth) if made else frame.padded(dav1d)
        for plane, decoded in zip(planes, Planes.read(dav1d, frame.true.dimensions(), frame.plan.depth)):
            for row, decoded_row in zip(plane, decoded):
                row[:len(decoded_row)] = decoded_row
        return bytes(planes)

    def reconstructed(self, data):
        """What the program makes of the bytes of a plan, or the tool `tiles` of those of a grid."""
        return subprocess.run([self.tools, "tiles"] if data.startswith(b"RTL") else [self.program], input=data, capture_output=True)

    def first_leaf(self, frame, plan, planes):
        """What the tool `trace` says first of a plan and given planes, with the leaf's own words; the leaf is kept in `leaf`.
        A grid has no trace: of it only whether the planes are the same is said."""
        self.leaf = None
        if frame.plan.is_grid:
            return "same" if self.reconstructed(plan).stdout == planes else "in a grid"
        said = subprocess.run([self.tools, "trace"], input=trace(plan, planes), capture_output=True)
        lines = (said.stdout or said.stderr).decode().splitlines() or ["nothing"]
        words = lines[0].split()
        if words[0] != "leaf":
            return lines[0]
        self.leaf = list(frame.plan.leaves())[int(words[1])]
        return f"{lines[0]} ({words_of(self.leaf)}, filter {frame.plan.filter})"

    def compare_sequence(self, last):
        """A sequence is to be what dav1d shows; if `last`, the last frame, has a plan before version 3, what the program made
        of each frame.  Its slots hold what the program made, and nothing filtered: if the encoder's hold something else, or
        dav1d something else than the encoder, nothing can be said; and frames of several tiles stand in no sequence."""
        has_shown = last.plan.version == 3
        if self.counts["tiled"]:
            return
        if self.apart or last.filtered is not None or not last.whole() or has_shown and self.counts["encoder"]:
            self.sequence = "not said"
            return
        wanted = self.shown if has_shown else b"".join(self.planes)
        made = subprocess.run([self.tools, "sequence"], input=read(self.folder, "sequence"), capture_output=True)
        if made.returncode:
            self.sequence = "refused: " + made.stderr.decode().strip()
        else:
            self.sequence = "same" if made.stdout == wanted else "differs"
        if self.sequence != "same":
            self.counts["unlisted"] += 1

    def unlisted(self):
        return unlisted(self.folder, self.counts)

    def write(self):
        """Adds the last line, and writes all lines into the folder."""
        counts = " ".join(f"{name} {count}" for name, count in self.counts.items())
        self.lines.append(f"{self.name}: {counts} sequence {self.sequence}")
        with open(os.path.join(self.folder, "compared.txt"), "w", encoding="utf-8") as file:
            file.write("\n".join(self.lines) + "\n")


def outcome(folder):
    """What `compare` counted in a folder, by name, and what it says of the sequence."""
    with open(os.path.join(folder, "compared.txt"), encoding="utf-8") as file:
        last = file.read().splitlines()[-1].split(": ", 1)[1]
    counts, _, sequence = last.partition(" sequence ")
    words = counts.split()
    return dict(zip(words[::2], map(int, words[1::2]))), sequence


def words_of(leaf):
    """A leaf without its coefficients and its chroma."""
    vectors = "".join(f" of {name} by row {row} column {column}" for name, row, column in leaf.vectors)
    step = f" {leaf.angle_step:+d}" if leaf.angle_step else ""
    return f"{leaf.width}x{leaf.height} at column {leaf.x} row {leaf.y}, {leaf.mode}{step}{vectors}, {'x'.join(map(str, leaf.tx_size))} {leaf.tx_type}"
