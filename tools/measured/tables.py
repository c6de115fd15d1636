#!/usr/bin/env python3
"""Writes the tables of docs/PERFORMANCE.md from the figures beside this script.

    tables.py [--check]

On the page, the table of NAME.tsv is between the lines `<!-- NAME.tsv -->` and `<!-- end -->`. The first line of NAME.tsv has the
headings of its columns. After measuring, put the new figures there and run this. --check fails if the page is out of date.
"""
import os
import re
import sys

HERE = os.path.dirname(os.path.abspath(__file__))
PAGE = os.path.join(HERE, "..", "..", "docs", "PERFORMANCE.md")
TABLE = re.compile(r"(<!-- (\w+\.tsv) -->\n).*?(?=<!-- end -->)", re.S)


def table(match):
    with open(os.path.join(HERE, match[2]), encoding="utf8") as handle:
        rows = [line.rstrip("\n").split("\t") for line in handle]
    lines = [rows[0], ["---"] * len(rows[0])] + rows[1:]
    return match[1] + "\n" + "".join("| %s |\n" % " | ".join(line) for line in lines) + "\n"


def main():
    with open(PAGE, encoding="utf8") as handle:
        old = handle.read()
    new = TABLE.sub(table, old)
    if "--check" in sys.argv:
        print("docs/PERFORMANCE.md %s the figures of tools/measured" % ("has" if new == old else "hasn't"))
        return 0 if new == old else 1
    with open(PAGE, "w", encoding="utf8") as handle:
        handle.write(new)
    return 0


if __name__ == "__main__":
    sys.exit(main())
