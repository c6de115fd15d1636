"""The planes of a frame as arrays of samples."""
import array
import sys


class Planes:
    """Y, U and V of a frame. Each is a list of rows, and a row is an array of samples: bytes at depth 8, else 16 bits.

    `bytes(planes)` is the form that the library writes and plans carry: row by row without padding, the low byte first.
    """

    def __init__(self, y, u, v, depth):
        self.y, self.u, self.v, self.depth = y, u, v, depth

    @classmethod
    def read(cls, data, dimensions, depth):
        """The planes in these bytes. `dimensions` has width and height of Y, U and V."""
        kind, size, at, planes = ("B", 1, 0, []) if depth == 8 else ("H", 2, 0, [])
        if len(data) != size * sum(width * height for width, height in dimensions):
            raise ValueError(f"{len(data)} bytes are not the planes of a frame of these dimensions")
        for width, height in dimensions:
            rows = []
            for _ in range(height):
                row = array.array(kind, data[at:at + size * width])
                if sys.byteorder == "big":
                    row.byteswap()
                rows.append(row)
                at += size * width
            planes.append(rows)
        return cls(*planes, depth)

    def __iter__(self):
        return iter((self.y, self.u, self.v))

    def resized(self, dimensions):
        """A copy with these widths and heights: it is cut on the right and below, or repeats the last column and row."""
        planes = []
        for plane, (width, height) in zip(self, dimensions):
            rows = (plane[min(row, len(plane) - 1)] for row in range(height))
            planes.append([row[:width] + row[-1:] * (width - len(row)) for row in rows])
        return Planes(*planes, self.depth)

    def __bytes__(self):
        out = bytearray()
        for row in (row for plane in self for row in plane):
            swapped = array.array(row.typecode, row)
            if sys.byteorder == "big":
                swapped.byteswap()
            out += swapped.tobytes()
        return bytes(out)

    def __eq__(self, other):
        return isinstance(other, Planes) and (*self, self.depth) == (*other, other.depth)
