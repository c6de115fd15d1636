"""Runs of a program over memory: what rav1e's code answers, cut by the rules of sources and sinks if a read or a write fails."""
import struct
import subprocess
import zlib

# The number of a call that no run makes.
NEVER = 2**32 - 1
PROGRAM, TOOLS = 0, 1
# The statuses of answers: done, refused, and of a trace that planes differ.
ANSWERS = (0, 2, 7)
WORDS_OF_TOOLS = ("tiles", "trace", "sequence", "bare")
# What the first read asks for. Longer inputs take as many reads more as their pieces, and more where a piece doesn't fit.
FIRST_READ = 65536


class Wrapper:
    """The program of `integrations/rav1e/answer`, which answers by rav1e's code what the program of a run would."""

    def __init__(self, program):
        self.program, self.known = program, {}

    def run(self, words, data):
        """Status, output and line."""
        key = (words, data)
        if key not in self.known:
            it = subprocess.run([self.program, *words], input=data, capture_output=True)
            self.known[key] = it.returncode, it.stdout, it.stderr
        return self.known[key]


class Sink:
    """Takes what fits, at most a piece in a call; the call of number `failing` fails, and each for which there is no room."""

    def __init__(self, room, piece, failing):
        self.room, self.piece, self.failing, self.calls, self.taken = room, piece, failing, 0, b""

    def write(self, data):
        """All of it, or as much as stands before a fault."""
        while data:
            call, count = self.calls, min(self.room - len(self.taken), len(data), self.piece)
            self.calls += 1
            if count == 0 or call == self.failing:
                return False
            self.taken, data = self.taken + data[:count], data[count:]
        return True

    def fields(self):
        return struct.pack("<III", self.room, self.piece, self.failing)


def reads_of(count, piece):
    """How many reads a source of so many bytes in such pieces is asked for, the one that finds the end with them."""
    assert count < FIRST_READ
    return -(-count // piece) + 1


def rows_of_planes(front, output):
    """Planes as they are written: frame after frame, row by row, by the sides that stand in a file's front."""
    width, height, depth, sampling = struct.unpack_from("<HHBB", front, 4)
    xdec, ydec = int(sampling < 2), int(sampling == 0)
    sides = [(width, height)] + 2 * [(width + xdec >> xdec, height + ydec >> ydec)]
    at = 0
    while at < len(output):
        for columns, rows in sides:
            for _ in range(rows):
                yield output[at:at + (columns << (depth > 8))]
                at += columns << (depth > 8)
    assert at == len(output)


def lines_in_halves(output):
    """Lines on differences as they are written: where, and then both samples."""
    for line in output.splitlines(keepends=True):
        place, given, samples = line.partition(b" given ")
        yield from (place, given + samples) if given else (line,)


def parts_of(kind, words, data, output):
    """What a run writes at once, part by part."""
    if (kind, words) == (PROGRAM, ()) or words in (("tiles",), ("sequence",)):
        return rows_of_planes(data, output) if output else []
    return lines_in_halves(output) if words == ("trace",) else [output]


def row_of(kind, words, source, sinks, data, zeros, answer):
    """A row: a run with these words over a source (piece, the read that fails) and two sinks; its status, line and output."""
    status, line, output = answer
    text = "".join(word + "\n" for word in words).encode()
    body = bytes([len(text)]) + text + struct.pack("<II", *source) + b"".join(sink.fields() for sink in sinks)
    body += struct.pack("<I", len(data)) + data + struct.pack("<I", zeros)
    body += bytes([status, len(line)]) + line + struct.pack("<II", len(output), zlib.crc32(output))
    return bytes([kind]) + struct.pack("<I", len(body)) + body


class Run:
    """What a stored row says of its run."""

    def __init__(self, row):
        self.kind, self.at, self.row = row[0], 5, row
        self.words = tuple(self.take(*self.fields("B")).decode().split("\n")[:-1])
        self.source, self.out, self.err = self.fields("II"), self.fields("III"), self.fields("III")
        self.data = self.take(*self.fields("I"))
        self.zeros, = self.fields("I")

    def take(self, count):
        self.at += count
        return self.row[self.at - count:self.at]

    def fields(self, form):
        return struct.unpack("<" + form, self.take(struct.calcsize("<" + form)))


class Runs:
    """The rows of runs, and a name for each."""

    def __init__(self, wrapper):
        self.wrapper, self.rows, self.names = wrapper, [], []

    def reads(self, kind, words):
        """Whether a run with these words reads its input."""
        return words == () if kind == PROGRAM else len(words) == 1 and words[0] in WORDS_OF_TOOLS

    def answer(self, kind, words, data, source, out):
        """The status and the line of a run that ends with these sinks."""
        piece, failing = source
        if self.reads(kind, words) and failing != NEVER and failing < reads_of(len(data), piece):
            return 4, b"read fault\n"
        status, output, line = self.wrapper.run((*(["tools"] if kind == TOOLS else []), *words), data)
        if all(out.write(part) for part in parts_of(kind, words, data, output)):
            return status, line
        return 5, b"write fault\n"

    def add(self, name, data=b"", words=(), kind=PROGRAM, piece=30, failing_read=NEVER, out=(2**20, 7, NEVER), err=(60, 7, NEVER), zeros=0):
        """A row: what a run with these words over such a source and sinks answers. Sinks: room, piece, the call that fails."""
        source, out, err = (piece, failing_read), Sink(*out), Sink(*err)
        status, line = self.answer(kind, tuple(words), data + bytes(zeros), source, out)
        err.write(line)
        self.rows.append(row_of(kind, words, source, (out, err), data, zeros, (status, err.taken, out.taken)))
        self.names.append(name)

    def again(self, name, row):
        """A row with the same run as a stored one, answered anew."""
        run = Run(row)
        out, err = Sink(*run.out), Sink(*run.err)
        status, line = self.answer(run.kind, run.words, run.data + bytes(run.zeros), run.source, out)
        err.write(line)
        self.rows.append(row_of(run.kind, run.words, run.source, (out, err), run.data, run.zeros, (status, err.taken, out.taken)))
        self.names.append(name)
