#!/usr/bin/env python3
"""Counts what the crates hold: lines, functions, and what makes code hard to take up.

    tools/count/count.py             the totals, and each thing that could go
    tools/count/count.py --crates    a line for each crate

The numbers come only from the text of the .rt and .antt files. A function is counted once for each
`fn` with a body or in a trait. The names of rav1e and of the C library, whose signatures are given
from outside, are not counted as functions with too many parameters.
"""
import collections
import pathlib
import re
import sys

ROOT = pathlib.Path(__file__).resolve().parents[2]
MOST_PARAMETERS = 7
# Signatures that rav1e gives: their parameters are not ours to choose.
RAV1E = {
    "dispatch_predict_intra", "get_intra_edges", "has_bottom_left", "has_top_right", "pred_cfl", "pred_cfl_128",
    "pred_cfl_left", "pred_cfl_top", "pred_directional", "predict_inter", "predict_inter_compound",
    "predict_inter_single", "predict_intra", "prep_8tap", "put_8tap",
}


def files_of(crate, suffix):
    return sorted(path for path in crate.rglob(f"*{suffix}") if "out" not in path.relative_to(crate).parts)


def code_of(text):
    """The text without comments and with literal strings emptied."""
    text = re.sub(r'"(?:[^"\\]|\\.)*"', '""', text)
    return re.sub(r"//[^\n]*", "", text)


def parameters(code, begin):
    """The parameters of the list that begins with the parenthesis at `begin`."""
    depth, commas, last = 0, 0, begin
    for at in range(begin, len(code)):
        letter = code[at]
        if letter in "([{<":
            depth += 1
        elif letter in ")]}" or (letter == ">" and code[at - 1] not in "-="):
            depth -= 1
            if depth == 0:
                return commas + bool(code[last + 1:at].strip())
        elif letter == "," and depth == 1:
            commas, last = commas + 1, at
    raise ValueError("a list of parameters that has no end")


def functions(code):
    """The name and the number of parameters of each function."""
    for found in re.finditer(r"\bfn (\w+)\s*(?:<[^(]*>)?\s*\(", code):
        yield found[1], parameters(code, found.end() - 1)


class Counts:
    """What is counted over all crates."""

    def __init__(self):
        self.crates = []
        self.types = collections.defaultdict(set)
        self.errors = set()
        self.wide = []
        self.exports = set()
        self.no_head = []
        self.same = 0

    def add_crate(self, crate):
        lines = collections.Counter()
        for suffix in (".rt", ".antt"):
            for path in files_of(crate, suffix):
                lines[suffix] += path.read_text().count("\n")
        found = 0
        for path in files_of(crate / "src", ".rt"):
            found += self.add_file(crate.name, path)
        self.crates.append((crate.name, lines[".rt"], lines[".antt"], found))

    def add_file(self, crate, path):
        text, found = path.read_text(), 0
        if not text.startswith("//"):
            self.no_head.append(str(path.relative_to(ROOT)))
        self.same += len(re.findall(r"^\s*///? The same\b", text, re.M))
        code = code_of(text)
        for kind, name in re.findall(r"^(?:pub(?:\([a-z]+\))? )?(struct|enum) (\w+)", code, re.M):
            self.types[name].add(f"{crate}/{path.stem}")
            if kind == "enum" and re.search(r"(Error|Fault|Refusal)$", name):
                self.errors.add(f"{crate}::{name}")
        for name, number in functions(code):
            found += 1
            if crate == "av1_c":
                self.exports.add(name)
            elif number > MOST_PARAMETERS and name not in RAV1E and not name.startswith("tilg_"):
                self.wide.append(f"{crate}::{name} ({number})")
        return found

    def pairs(self):
        return sorted(name for name in self.exports if name.endswith("_8") and name[:-1] + "16" in self.exports)

    def shared_names(self):
        return {name: sorted(where) for name, where in self.types.items() if len(where) > 1}


def listed(title, things):
    print(f"{len(things):6}  {title}")
    for thing in sorted(things):
        print(f"        {thing}")


def main(words):
    if words not in ([], ["--crates"]):
        sys.exit("usage: count.py [--crates]")
    counts = Counts()
    names = [line.split()[0].rstrip(":") for line in (ROOT / "crates.txt").read_text().splitlines()
             if line.strip() and not line.startswith("#")]
    for name in sorted(names):
        counts.add_crate(ROOT / "crates" / name)
    if words:
        for name, rt, antt, found in counts.crates:
            print(f"{name:16} {rt:6} {antt:6} {found:5}")
    print(f"{len(counts.crates):6}  crates")
    for at, title in ((1, "lines of .rt"), (2, "lines of .antt"), (3, "functions")):
        print(f"{sum(crate[at] for crate in counts.crates):6}  {title}")
    if not words:
        shared = counts.shared_names()
        listed("names that stand for more than one type",
               [f"{name}: {', '.join(where)}" for name, where in shared.items()])
        listed("enumerations of errors", counts.errors)
        listed(f"functions of ours with more than {MOST_PARAMETERS} parameters", counts.wide)
        listed("pairs of exports that differ by the type of a sample alone", counts.pairs())
        listed("files whose first line does not say what they are for", counts.no_head)
        print(f"{counts.same:6}  comments that begin with 'The same'")


if __name__ == "__main__":
    main(sys.argv[1:])
