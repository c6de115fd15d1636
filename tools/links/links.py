#!/usr/bin/env python3
"""Checks that every link on every page leads to a file, a heading or a line that exists.

    links.py [--number]

If the text of a link is a name in backticks and the link leads into code, its line must define that name. With --number
the script finds these lines and corrects the numbers. It checks the two pages that tools/trusted writes, but never
changes them. It doesn't follow links to other hosts, and ignores fenced blocks."""
import os
import re
import subprocess
import sys

WRITTEN = {"docs/TRUSTED.md", "docs/TRUSTED_FORMAT.md"}
TOP = os.path.dirname(os.path.dirname(os.path.dirname(os.path.abspath(__file__))))
FENCE = re.compile(r"^```.*?^```$", re.M | re.S)
LINK = re.compile(r"\[([^\[\]]*)\]\(([^()\s#]*)(?:#([^()\s]*))?\)")
DEFINES = (r"^\s*(?:(?:pub(?:\(crate\))?|abbrev|unfoldable|opaque|const|async) )*"
           r"(?:(?:record|data|fn|struct|enum|trait|const|mod) )?%s(?=[\s:(<{;]|$)")


def text_of(path):
    with open(path, encoding="utf8") as handle:
        return handle.read()


def anchors(path):
    """the anchors of a page's headings, as a reader of Markdown makes them"""
    heads = re.findall(r"^#+ (.*)$", FENCE.sub("", text_of(path)), re.M)
    return {re.sub(r"[^\w -]", "", head).lower().strip().replace(" ", "-") for head in heads}


def defining(path, name):
    """the lines of a file of code that define a name"""
    pattern = re.compile(DEFINES % re.escape(name.split("::")[-1]))
    return [n for n, line in enumerate(text_of(path).split("\n"), 1) if pattern.match(line)]


def fault_of(page, text, target, anchor):
    """what is wrong with a link, and the anchor that it should have"""
    path = os.path.normpath(os.path.join(TOP, os.path.dirname(page), target)) if target else os.path.join(TOP, page)
    if not os.path.exists(path):
        return "no such file", anchor
    is_code = path.endswith((".rt", ".antt"))
    name = re.fullmatch(r"`([\w':]+)`", text)
    if is_code and name:
        found = defining(path, name[1])
        line = int(anchor[1:]) if anchor and re.fullmatch(r"L\d+", anchor) else 0
        if found and line not in found:
            return "no line that defines it", "L%d" % min(found, key=lambda n: abs(n - line))
        return (None if found else "the file doesn't define it"), anchor
    if anchor and not is_code and anchor not in anchors(path):
        return "no such heading", anchor
    return None, anchor


def looked_at(page, text, is_numbering):
    """a page with the lines of names written anew, how many links it has, and what is wrong with them"""
    count, faults = 0, []

    def looked(match):
        nonlocal count
        text, target, anchor = match.groups()
        if re.match(r"\w+:", target):
            return match[0]
        count += 1
        fault, wanted = fault_of(page, text, target, anchor)
        if fault and is_numbering and wanted != anchor:
            return "[%s](%s#%s)" % (text, target, wanted)
        if fault:
            faults.append("%s: [%s](%s): %s" % (page, text, target + ("#" + anchor if anchor else ""), fault))
        return match[0]

    parts = re.split("(%s)" % FENCE.pattern, text, flags=FENCE.flags)
    return "".join(part if n % 2 else LINK.sub(looked, part) for n, part in enumerate(parts)), count, faults


def main():
    is_numbering, count, faults = "--number" in sys.argv[1:], 0, []
    listed = subprocess.run(["git", "ls-files", "*.md"], cwd=TOP, check=True, stdout=subprocess.PIPE, text=True).stdout.split()
    for page in listed:
        before = text_of(os.path.join(TOP, page))
        after, more, wrong = looked_at(page, before, is_numbering and page not in WRITTEN)
        count, faults = count + more, faults + wrong
        if after != before:
            with open(os.path.join(TOP, page), "w", encoding="utf8") as handle:
                handle.write(after)
    for fault in faults:
        print(fault)
    print("%d links, %d lead nowhere%s" % (count, len(faults), "; --number finds lines anew" if faults else ""))
    return 1 if faults else 0


if __name__ == "__main__":
    sys.exit(main())
