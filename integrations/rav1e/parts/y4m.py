"""Puts raw frames from standard input into a y4m file on standard output: `y4m.py WIDTH HEIGHT FORMAT`, FORMAT as ffmpeg names it.

ffmpeg 5.1 itself writes y4m of more than 8 bits with halved chroma wrong where the width is odd.
"""
import re
import sys

SAMPLINGS = {"420": (1, 1), "422": (1, 0), "444": (0, 0)}


def main():
    width, height = int(sys.argv[1]), int(sys.argv[2])
    sampling, depth = re.fullmatch(r"yuv(\d+)p(\d*)(?:le)?", sys.argv[3]).groups()
    xdec, ydec = SAMPLINGS[sampling]
    count = width * height + 2 * (width + xdec >> xdec) * (height + ydec >> ydec)
    name = sampling + (f"p{depth}" if depth else "jpeg" if sampling == "420" else "")
    out = sys.stdout.buffer
    out.write(f"YUV4MPEG2 W{width} H{height} F25:1 Ip A1:1 C{name}\n".encode())
    while frame := sys.stdin.buffer.read(count * (2 if depth else 1)):
        out.write(b"FRAME\n" + frame)


if __name__ == "__main__":
    main()
