"""What `record` leaves in a folder, and what is made of it: frames in coding order, a sequence."""
import os
import struct

from tilgwaren import Plan, Planes


class Coded:
    """A coded frame: its plan or grid, the encoder's planes, and what the encoder told of it."""

    def __init__(self, folder, number, told):
        self.number, self.folder = number, folder
        self.shown, self.refresh = told["shown"], told["refresh"]
        self.quantizer = told["quantizer"]
        if os.path.exists(os.path.join(folder, f"{number:04}.grid")):
            self.data, self.planes = (read(folder, f"{number:04}.{kind}") for kind in ("grid", "planes"))
        else:
            trace = read(folder, f"{number:04}.trace")
            end = 8 + int.from_bytes(trace[4:8], "little")
            self.data, self.planes = trace[8:end], trace[end:]
        self.plan = Plan.read(self.data)
        # The frame without what is coded past its true sides.
        self.true = Plan(told["width"], told["height"], self.plan.depth, self.plan.sampling)
        self.monochrome = told["monochrome"]
        self.filtered = None
        if os.path.exists(os.path.join(folder, f"{number:04}.filtered")):
            self.filtered = read(folder, f"{number:04}.filtered")

    def whole(self):
        """Whether the frame's true sides are those of its plan."""
        return self.true.dimensions() == self.plan.dimensions()

    def cropped(self, planes):
        """The samples within the true sides of the plan's planes."""
        return bytes(Planes.read(planes, self.plan.dimensions(), self.plan.depth).resized(self.true.dimensions()))

    def padded(self, planes):
        """The plan's planes of those within the true sides, whose last columns and rows are repeated."""
        return Planes.read(planes, self.true.dimensions(), self.plan.depth).resized(self.plan.dimensions())

    def with_chroma(self, frames):
        """The frames as decoders write them; if the encoder has no chroma, with the grey chroma of its plans behind each."""
        if not self.monochrome:
            return frames
        wide = 1 if self.true.depth == 8 else 2
        luma = self.true.width * self.true.height * wide
        grey = (1 << self.true.depth - 1).to_bytes(wide, "little") * ((self.true.planes_length() - luma) // wide)
        return b"".join(frames[at:at + luma] + grey for at in range(0, len(frames), luma))


class Again:
    """What a slot holds is shown again."""

    def __init__(self, slot):
        self.slot = slot


def read(folder, name):
    with open(os.path.join(folder, name), "rb") as file:
        return file.read()


def events(folder):
    """What the encoder did, in coding order."""
    for line in read(folder, "index.txt").decode().splitlines():
        words = line.split()
        if words[0] == "again":
            yield Again(int(words[1]))
        else:
            yield Coded(folder, int(words[1]), dict(zip(words[2::2], map(int, words[3::2]))))


# The kinds of an entry of a sequence.
HIDDEN, SHOWN, AGAIN = range(3)


def write_sequence(folder):
    """Writes the clip as one sequence, which carries no planes: with plans of version 3 all that the encoder did, with plans
    before it the coded frames, of which each is shown.  Frames of several tiles stand in no sequence."""
    done = list(events(folder))
    coded = [event for event in done if isinstance(event, Coded)]
    if any(frame.plan.is_grid for frame in coded):
        return
    is_third = coded[0].plan.version == 3
    entries = done if is_third else coded
    text = [b"RSQ2" if is_third else b"RSQ1", coded[0].data[4:10], struct.pack("<H", len(entries))]
    for entry in entries:
        if isinstance(entry, Again):
            text.append(bytes([AGAIN, entry.slot, 0]))
            continue
        if is_third:
            text.append(bytes([SHOWN if entry.shown else HIDDEN]))
        part, = entry.plan.parts()
        text += entry.data[10:19], struct.pack("<BI", entry.refresh, len(part)), part
    with open(os.path.join(folder, "sequence"), "wb") as file:
        file.write(b"".join(text))
