#!/usr/bin/env python3
"""lines.py [--check] [FOLDER..]: breaks long lines of .antt files, of clauses, imports and comments where their outermost
parts end: none over 120 characters in specs/ and in comments of .rt files, none over 160 elsewhere. With --check it only
names the lines that are too long, and fails if there are any. The default folder is crates/."""
import os
import re
import sys

SHORT, LONG = 120, 160
# In the first line of a file that a tool writes.
WRITTEN = "written by `tools/"
TOKEN = re.compile(r'"(?:[^"\\]|\\.)*"|--(?= |$).*|[(){}\[\]⟨⟩](?!\])|\[\]|[^\s(){}⟨⟩\[\]"]+')
OPENS, CLOSES = set("({[⟨"), set(")}]⟩")
FLAT = ("ensures ", "requires ")
COMMENT = re.compile(r"(\s*(?:--|//[/!]?))(\s+)(\S.*)")
IMPORT = re.compile(r"((?:pub |ghost )*use [^{]*\{)([^{}]*)(\};?)")
# What no line ends with, and what none begins with.
HEADS = {"use", "pub", "abbrev", "λ", "let", "record", ":", "if", "then", "else"}
TAILS = {"=", ":", "→", "∷", "≡", "where", "Type", "0"}
# How badly a line parts before and after a word.
BEFORE = {"∙": 0, "else": 0, "++": 1, "&&": 1, "||": 1, "then": 2, "in": 0}
AFTER = {"=": 0, "→": 0, "∷": 1, "×": 1, "≡": 2}


def files_of(folders):
    """The .antt and .rt files of crates, without what builds leave there."""
    for folder in folders:
        for at, inner, names in os.walk(folder):
            inner[:] = sorted(it for it in inner if it != "out")
            for name in sorted(names):
                if name.endswith((".antt", ".rt")):
                    yield os.path.join(at, name)


def limit_of(path, line):
    """How long the line of a file may be."""
    is_short = "/specs/" in path or path.endswith(".rt") and line.lstrip().startswith("//")
    return SHORT if is_short else LONG


def worth_of(before, word, depth, is_clause):
    """How badly a line parts between two words, so deep in brackets."""
    if is_clause and depth == 0 and word == "{":
        return 20
    if before in HEADS or word in TAILS:
        return 7
    if before[-1] in ",;":
        return 0 if before[-1] == "," else -1
    if before == "=" and depth > 0:
        return 4
    worth = min(AFTER.get(before, 4), BEFORE.get(word, 4))
    is_between = before[-1] in CLOSES and word in OPENS
    return min(worth, 2) if is_between or before[-1] == "." and len(before) > 1 else worth


def places(line):
    """Where the line may be broken: of each white space the column, how deep in brackets it is, and how badly it parts."""
    is_clause = line.lstrip().startswith(FLAT)
    depth, last, found = 0, None, []
    for token in TOKEN.finditer(line):
        word = token.group()
        if last is not None and token.start() > last.end():
            found.append((token.start(), depth, worth_of(last.group(), word, depth, is_clause)))
        if word in OPENS:
            depth += 1
        elif word in CLOSES:
            depth -= 1
        last = token
    return found


def broken(line, limit):
    """The line in pieces of at most so many characters, if it can be broken."""
    indent = len(line) - len(line.lstrip())
    pieces, outer = [], 0
    while len(line) > limit:
        own = len(line) - len(line.lstrip())
        choices = [
            (3 * depth + worth + 3 * (limit - column) / limit, column, depth)
            for column, depth, worth in places(line)
            if own + 8 < column <= limit + 1
        ]
        if not choices:
            break
        _, column, depth = min(choices)
        pieces.append(line[:column].rstrip())
        outer = max(outer + depth - line.lstrip().startswith(FLAT), 0)
        line = " " * (indent + 4 + 2 * min(outer, 3)) + line[column:].lstrip()
    return [*pieces, line]


def imports(line, limit):
    """The line of an import as several of the same module, each of at most so many characters."""
    begin, names, end = IMPORT.fullmatch(line).groups()
    lines = [[]]
    for name in names.split(", "):
        if len(begin + ", ".join([*lines[-1], name]) + end) > limit:
            lines.append([])
        lines[-1].append(name)
    return [begin + ", ".join(it) + end for it in lines]


def is_laid_out(line):
    """Whether rt fmt or a table says how the line is broken."""
    return line.lstrip().startswith(("#[", "/// |", "//! |"))


def paragraph(lines, limit):
    """How many lines from the first on are one paragraph or entry of a comment, and what they are when filled anew."""
    mark, inner, text = COMMENT.fullmatch(lines[0]).groups()
    words, inner = text.split(), inner + "  " * text.startswith("- ")
    count = 1
    for line in lines[1:]:
        more = COMMENT.fullmatch(line)
        if not more or more[1] != mark or more[2] != inner or not more[3] or more[3].startswith(("- ", "|", "#", "`" * 3)):
            break
        words += more[3].split()
        count += 1
    result = [lines[0][: len(lines[0]) - len(text)] + words[0]]
    for word in words[1:]:
        if len(result[-1]) + 1 + len(word) > limit:
            result.append(mark + inner + word)
        else:
            result[-1] += " " + word
    return count, result


def wrapped(lines, path):
    """The lines of a file, none of them too long."""
    result, at = [], 0
    while at < len(lines):
        line, limit, count = lines[at], limit_of(path, lines[at]), 1
        if len(line) <= limit or is_laid_out(line):
            result.append(line)
        elif COMMENT.fullmatch(line):
            count, filled = paragraph(lines[at:], limit)
            result += filled
        else:
            result += (imports if IMPORT.fullmatch(line) else broken)(line, limit - 4)
        at += count
    return result


def main(words):
    only_checks = "--check" in words
    long = 0
    for path in files_of([it for it in words if it != "--check"] or ["crates"]):
        with open(path, encoding="utf-8") as file:
            text = file.read()
        if WRITTEN in text.split("\n", 1)[0]:
            continue
        if not only_checks:
            new = "\n".join(wrapped(text.split("\n"), path))
            if new != text:
                with open(path, "w", encoding="utf-8") as file:
                    file.write(new)
            text = new
        for number, line in enumerate(text.split("\n"), 1):
            limit = limit_of(path, line)
            if len(line) > limit and not is_laid_out(line):
                long += 1
                print(f"{path}:{number}: {len(line)} characters, where {limit} are the most")
    print(f"{long} lines are too long")
    return int(long > 0)


if __name__ == "__main__":
    sys.exit(main(sys.argv[1:]))
