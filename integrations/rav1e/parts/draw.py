"""Draws the clips of check.txt: `draw.py FOLDER` writes FOLDER/NAME.y4m, without ffmpeg."""
import os
import sys

# Name, width, height, depth, sampling as y4m has it (mono: luma alone), frames.
CLIPS = (
    ("check420-8", 128, 96, 8, "420", 8), ("check422-8", 96, 80, 8, "422", 6), ("check444-8", 96, 80, 8, "444", 6),
    ("check420-10", 128, 72, 10, "420", 8), ("check422-10", 96, 80, 10, "422", 6), ("check444-10", 70, 54, 10, "444", 6),
    ("check420-12", 91, 51, 12, "420", 6), ("check422-12", 96, 80, 12, "422", 6), ("check444-12", 80, 64, 12, "444", 6),
    ("check-odd", 49, 33, 8, "420", 8), ("check-mono", 96, 80, 8, "mono", 6), ("check-large", 200, 136, 8, "420", 6))


def sample(x, y, time, plane):
    """A sample of 12 bits: a slope, texture that moves with it, a box that moves against it, and grain."""
    moved_x, moved_y = x + 3 * time, y - 2 * time
    value = 900 + 9 * (x + 2 * y) + 40 * ((moved_x * moved_x // 16 ^ moved_y * 5) & 15) - 300 * plane
    if abs(x - 20 - 4 * time) < 14 and abs(y - 30) < 10:
        value = 3200 - 700 * plane + 24 * (x & 7)
    grain = (x * 1103515245 + y * 12345 + time * 2654435761 + plane) * 2246822519 >> 13 & 63
    return min(max(value + grain, 0), 4095)


def planes(width, height, sampling):
    """The number of each plane, its sides, and how far its samples stand apart."""
    across, down = int(sampling in ("420", "422")), int(sampling == "420")
    yield 0, width, height, 1, 1
    if sampling != "mono":
        for plane in (1, 2):
            yield plane, width + across >> across, height + down >> down, 1 + across, 1 + down


def frame(width, height, depth, sampling, time):
    out = bytearray()
    for plane, columns, rows, across, down in planes(width, height, sampling):
        values = (sample(x * across, y * down, time, plane) >> 12 - depth for y in range(rows) for x in range(columns))
        for value in values:
            out += value.to_bytes(1 if depth == 8 else 2, "little")
    return bytes(out)


def main():
    folder, = sys.argv[1:]
    os.makedirs(folder, exist_ok=True)
    for name, width, height, depth, sampling, frames in CLIPS:
        kind = {"420": "420jpeg"}.get(sampling, sampling) if depth == 8 else f"{sampling}p{depth}"
        with open(os.path.join(folder, name + ".y4m"), "wb") as file:
            file.write(f"YUV4MPEG2 W{width} H{height} F25:1 Ip A1:1 C{kind}\n".encode())
            for time in range(frames):
                file.write(b"FRAME\n" + frame(width, height, depth, sampling, time))


if __name__ == "__main__":
    main()
