#!/usr/bin/env python3
"""Writes the constant parts of the page of `av1_view` as Rattle constants, from the page's own files.

    tools/view_template/view_template.py            writes crates/av1_view/src/template.rt, and the stored run of the program
    tools/view_template/view_template.py --check    fails if these are out of date

The files are view.html, view.css and the .js files in crates/av1_view/data. In view.html, @STYLE@ stands for view.css, @SCRIPT@ for the .js
files one after the other, and @PLAN@, @PLANES@, @PREDICTIONS@ and @GIVEN@ for bytes in base64. The constants are the text between these four,
and the script.
"""
import base64
import os
import re
import sys

CRATE = os.path.join(os.path.dirname(os.path.abspath(__file__)), "..", "..", "crates", "av1_view")

# How long a line may be before `rt fmt` puts its string on a line of its own.
WIDTH = 100

# Each part: its name, and what it is.
PARTS = [
    ("BEFORE_PLAN", "What stands before the bytes of the plan: the page without its script."),
    ("BEFORE_PLANES", "Between the bytes of the plan and those of its planes."),
    ("BEFORE_PREDICTIONS", "Between the planes and what was predicted of them, which is packed."),
    ("BEFORE_GIVEN", "Between the predictions and the planes that a trace gives."),
    ("BEFORE_SCRIPT", "Between the given planes and the script."),
    ("SCRIPT", "The script, which reads all of these."),
    ("AFTER_SCRIPT", "The end of the page."),
]

# The files of the script: what a plan says, what is shown of it, how that is drawn, and what one does with it.
SCRIPT = ["names", "plan", "samples", "files", "colour", "differences", "departures", "classes", "texts", "state", "shared", "blocks", "marks",
          "labels", "layers", "difference_marks", "numbers", "source", "picture", "definitions", "panel", "list", "moving", "strip", "controls", "pointer",
          "address", "start"]


def read(name):
    with open(os.path.join(CRATE, "data", name), encoding="ascii") as file:
        return file.read()


def parts():
    """The texts of the parts, in their order."""
    style, script = read("view.css"), "\n".join(read(name + ".js") for name in SCRIPT)
    if "</" in script or "<!--" in script:
        sys.exit("view_template.py: a .js file contains `</` or `<!--`, which would end the script element: write it differently")
    pieces = re.split("@PLAN@|@PLANES@|@PREDICTIONS@|@GIVEN@|@SCRIPT@", read("view.html").replace("@STYLE@", style))
    if len(pieces) != 6:
        sys.exit("view_template.py: view.html must have each of @STYLE@, @SCRIPT@, @PLAN@, @PLANES@, @PREDICTIONS@ and @GIVEN@ once")
    return pieces[:5] + [script, pieces[5]]


# What stands for a change of a byte: 0, -1, 1, -2, 2 .. as 0, 1, 2, 3, 4 ..
SIGN_LAST = bytes(2 * change if change < 128 else 511 - 2 * change for change in range(256))


def packed(row, planes, predictions):
    """Predictions, packed against planes of which a row of luma has so many bytes (specs/Packed.antt)."""
    residues = bytes((a - b) % 256 for a, b in zip(planes, predictions))
    numbers = bytes((a - b) % 256 for a, b in zip(residues, bytes(row) + residues)).translate(SIGN_LAST)
    groups = []
    for start in range(0, len(numbers), 8):
        group = numbers[start:start + 8]
        bits = max(group).bit_length()
        word = sum(number << bits * i for i, number in enumerate(group)) if bits else 0
        groups.append(bytes([bits]) + word.to_bytes(bits, "little"))
    return b"".join(groups)


def page(plan, planes, predictions, given=b""):
    """The page of these bytes. The predictions are packed."""
    front, *rest = [part.encode() for part in parts()]
    return front + b"".join(base64.b64encode(data) + part for data, part in zip([plan, planes, predictions, given], rest)) + b"".join(rest[4:])


def source():
    """The module of constants, each in one line: nobody reads or edits it."""
    lines = ["//! The constant parts of the page, written by `tools/view_template` from the files in `data/`."]
    for (name, text), part in zip(PARTS, parts()):
        literal = part.replace("\\", "\\\\").replace('"', '\\"').replace("\n", "\\n")
        line = f'pub const {name}: &str = "{literal}";'
        lines += ["", f"/// {text}", line if len(line) <= WIDTH else line.replace(" = ", " =\n    ", 1)]
    return "\n".join(lines) + "\n"


def stored():
    """The page of the worked plan of `av1_vectors`. Of its four leaves of 4x4 samples the first is predicted as 128 in Y and the others as 131, what
    the residue of the first has made of it; U and V, as large as Y, are predicted as 128."""
    luma = (bytes([128]) * 4 + bytes([131]) * 4) * 4 + bytes([131]) * 32
    with open(os.path.join(CRATE, "stdin"), "rb") as file:
        plan = file.read()
    with open(os.path.join(CRATE, "..", "av1_vectors", "stdout"), "rb") as file:
        planes = file.read()
    return page(plan, planes, packed(8, planes, luma + bytes([128]) * 128))


def main():
    written = {os.path.join("src", "template.rt"): source().encode(), "stdout": stored()}
    if sys.argv[1:] == ["--check"]:
        other = []
        for name, data in written.items():
            with open(os.path.join(CRATE, name), "rb") as file:
                other += [] if file.read() == data else [name]
        print("up to date" if not other else "out of date, run tools/view_template/view_template.py: " + ", ".join(other))
        sys.exit(1 if other else 0)
    for name, data in written.items():
        with open(os.path.join(CRATE, name), "wb") as file:
            file.write(data)


if __name__ == "__main__":
    main()
