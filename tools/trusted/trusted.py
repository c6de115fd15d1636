#!/usr/bin/env python3
"""Prints what the main theorem says: its contract, then each definition that it cites. A definition stands above what it cites.

    trusted.py [--format | --check | --count] [--root ROOT]..

Without an option it prints docs/TRUSTED.md, with --format docs/TRUSTED_FORMAT.md, the second page, which has the grammar of bytes. --check
fails if a page is out of date, if a definition that is cited stands on neither page, if one is printed with another meaning than its file
has, or if a word means nothing. --count prints how many definitions, lines and words there are. --root CRATE.NAME, CRATE.FILE.NAME or CRATE
prints the definitions of another theorem, in chapters by crate. try_trusted.py shows that --check finds faults.

`definitions.py` reads the definitions, `contract.py` the contract, `notation.py` and `tables.py` say how they look, `alike.py` compares what
is printed with the file, `chapters.py` has the chapters, `av1.txt` the sections of the AV1 specification, `library.txt` the library's words."""
import argparse
import collections
import difflib
import os
import re
import shutil
import subprocess
import sys
import chapters
import contract
import tables
from alike import are_alike
from definitions import TOP, citations, closure, indent, module, read, resolve, roots_of, words_of, words_of_std
from notation import PLACE, WIDTH, filled, looks_of

HERE = os.path.dirname(os.path.abspath(__file__))
PAGES = {"main": "docs/TRUSTED.md", "format": "docs/TRUSTED_FORMAT.md"}


def text_of(name):
    with open(os.path.join(HERE, name), encoding="utf8") as handle:
        return handle.read().split("\n")


def sections_of_av1():
    """for each definition the title of its section of the AV1 specification, and a remark"""
    rows = [line.split("|") for line in text_of("av1.txt") if line.strip() and not line.startswith("#")]
    return {row[0].strip(): (row[1].strip(), row[2].strip() if len(row) > 2 else "") for row in rows}


AV1 = sections_of_av1()


def key_of(d):
    return "%s.%s" % (d.place, d.name)


class Names:
    """What a definition is called on the pages: by its own name or, if several have it, behind that of its crate."""

    def __init__(self, reached):
        self.many = collections.Counter(d.name for d in reached)
        self.place_of_list = next((d for d in reached if d.crate == "av1_dct" and d.name == "at"), None)

    def of(self, d):
        name = d.name.replace("::", ".").replace("◌", " _ ").strip()
        return "%s.%s" % (d.crate[4:], name) if self.many[d.name] > 1 and d is not self.place_of_list else name

    def cited(self, file, word):
        """how a word of a file is printed"""
        name, _, rest = word.partition(".")
        if name in file.aliases and rest:
            path = file.aliases[name]
            owners = [part for part in path if not part.startswith("The") and part[:1].isupper()]
            return "%s.%s" % (path[-1] if "TheConstants" in path else owners[-1], rest)
        path, own = file.names.get(name, ((), name))
        if "TheVariants" in path:
            owner = [part for part in path if not part.startswith("The")][-1]
            return word if own == name else ".".join(filter(None, [owner, own, rest]))
        target = resolve(path, own) if path else file.definitions.get(name)
        if target is None or target.name != own:
            return word
        return PLACE if target is self.place_of_list and not rest else self.of(target) + ("." + rest if rest else "")

    def lines(self, d):
        """the lines of a definition with the names of the pages"""
        lines = list(d.lines)
        for number, start, word in reversed(words_of(d) if not d.is_rust else []):
            if word.split(".")[0] not in d.fields():
                lines[number] = lines[number][:start] + self.cited(module(d.path), word) + lines[number][start + len(word):]
        return lines


# ---- the order of a file's definitions, and the words before them


def units(found):
    """the definitions of a file: each with those behind it that have no words of their own, which its words are for"""
    groups, owner, last = [], {}, None
    for d in sorted(dict.fromkeys(module(found[0].path).definitions.values()), key=lambda d: d.line):
        last = owner[d] = d if d.note or last is None else last
    for d in sorted(found, key=lambda d: d.line):
        if groups and owner[groups[-1][0]] is owner[d]:
            groups[-1].append(d)
        else:
            groups.append([d])
    return groups, owner


def top_down(groups):
    """the groups, each above those that it cites; those that most hangs on stand first"""
    at = {d: i for i, group in enumerate(groups) for d in group}
    cites = [[at[o] for d in group for o in citations(d)[0] if at.get(o, i) != i] for i, group in enumerate(groups)]
    cited, order, seen = {j for some in cites for j in some}, [], set()

    def below(i, found):
        for j in set(cites[i]) - found:
            found.add(j)
            below(j, found)
        return len(found)

    def visit(i):
        if i not in seen:
            seen.add(i)
            for j in reversed(cites[i]):
                visit(j)
            order.append(groups[i])
    for i in sorted(range(len(groups)), key=lambda i: (i in cited, below(i, {i}), -i)):
        visit(i)
    return order[::-1]


def without_av1(note):
    """words without the sections that they name: av1.txt has them"""
    return re.sub(r"\s*\(AV1 specification: [^)]*\)|\s*AV1 specification: (\([^)]*\)|[^.(])*(\.|$)", "", note)


def words_before(d, owner, last):
    """the words before a definition, and its section of the AV1 specification: `same` if it is the last one in the file"""
    title, remark = AV1.get(key_of(d), ("", ""))
    note = tables.sentence(without_av1(owner.note)) if owner and owner.name in chapters.SPOKEN else ""
    section = "§\u00a0" + ": ".join(filter(None, ["same" if title == last and remark else title, remark])) if title else ""
    return filled(note + " " + section, WIDTH, "-- ", "-- ")


# ---- pages


class Writer:
    """Writes the pages, and keeps what it has printed."""

    def __init__(self, reached, is_other):
        self.reached, self.names, self.where, self.unlike, self.is_other = reached, Names(reached), {}, [], is_other
        self.enums = {d.name: d for d in reached if d.name in tables.FOLDED and tables.cases(d)}
        self.columns = {d: column for d in reached for column in [tables.column_of(d, self.enums)] if column}
        self.chapters = chapters.CHAPTERS
        if is_other:
            self.chapters = [("main", crate, "", " ".join(sorted({d.place for d in reached if d.crate == crate and not d.is_rust})))
                             for crate in sorted({d.crate for d in reached})]

    def note(self, d, page):
        if d in self.where:
            sys.exit("%s %s is printed twice" % (d.path, d.name))
        self.where[d] = page

    def pages(self):
        """the lines of both pages, without their heads"""
        out, before = {"main": [], "format": []}, set()
        for page, title, text, listed in self.chapters:
            files = listed.split()
            types = tables.types_of(files, self.reached, before)
            before.update(types)
            out[page] += ["## " + title, ""] + filled(text) + [""] * bool(text)
            out[page] += contract.shown() + text_of("library.txt") if title == chapters.THEOREM else []
            out[page] += self.records(page, types + [d for d in self.reached if d.place in files and tables.is_record(d)])
            out[page] += self.enumerations(page, title, files) + self.definitions(page, files)
        return out

    def records(self, page, found):
        rows = []
        for d in dict.fromkeys(found):
            if d.name not in self.enums and d not in self.where:
                self.note(d, page)
                is_all = d.name.endswith("::ALL") and d.name[:-5] in self.enums
                rows += [] if is_all else [tables.row_of(d, self.names.of(d), self.names.lines(d))]
        return ["| record or enumeration | what it is | fields or cases |", "|---|---|---|"] + rows + [""] if rows else []

    def enumerations(self, page, title, files):
        """a table for each enumeration, with what functions give of its cases"""
        if page == "main" and not self.is_other:
            later = {name for other, _, _, listed in self.chapters if other == "format" for name in listed.split()}
            files = {d.place for d in self.reached} - later if title == chapters.SIZES else set()
        out = []
        for name in (name for name in tables.FOLDED if name in self.enums):
            enum = self.enums[name]
            found = [d for d in sorted(self.columns, key=lambda d: (d.path, d.line)) if d.place in files and self.columns[d][0] == name]
            if found:
                is_first = enum not in self.where
                for d in found + [enum] * is_first:
                    self.note(d, page)
                text, table = tables.enumeration(enum, [(d, self.columns[d][1]) for d in found], self.names, is_first)
                out += filled(" ".join(text)) + [""] + (["```text"] + table + ["```", ""] if table else [])
        return out

    def definitions(self, page, files):
        """the definitions of a chapter's files, in one block with a line for each file"""
        out, links = [], []
        for name in files:
            found = [d for d in self.reached if d.place == name and d not in self.where and d not in self.columns]
            if found:
                links.append("[%s](../%s)" % (name, found[0].path))
                out += ["-- [%s]" % name, ""] + self.section(page, found) + [""]
        return filled("Files: %s." % ", ".join(links)) + ["", "```text"] + out[:-1] + ["```", ""] if out else []

    def section(self, page, found):
        """the definitions of a file"""
        note = tables.sentence(without_av1(module(found[0].path).note)) if found[0].place in chapters.SPOKEN else ""
        groups, owner = units(found)
        beside, said, last, out, was_short = [], set(), None, filled(note, WIDTH, "-- ", "-- "), False
        for group in top_down(groups):
            lines = []
            for d in group:
                self.note(d, page)
                if tables.rows_of_numbers(d):
                    beside.append(d)
                    continue
                lines += words_before(d, owner[d] if owner[d] not in said else None, last) + self.module_line(d)
                last = AV1.get(key_of(d), (last, ""))[0]
                said.add(owner[d])
                looks, pairs = looks_of(d, self.names.of(d), self.names.lines(d))
                self.unlike += ["printed with another meaning: %s" % d.name for stands, made in pairs if not are_alike(stands, made)]
                lines += looks
            is_short = sum(not line.startswith("--") for line in lines) <= 2
            out += [""] * (bool(out) and bool(lines) and not (was_short and is_short)) + lines
            was_short = is_short
        return out + [line for d in beside for line in words_before(d, d, None)] + tables.numbers(beside, self.names)

    def module_line(self, d):
        """the variables of `module _`, which are the first arguments of all definitions within"""
        if not d.bound:
            return []
        line = next(line for line in reversed(read(d.path)[:d.line]) if re.match(r" *module _ ", line))
        return ["-- Of %s, which come before the other arguments in other files." % re.sub(r" *module _ (.*) where", r"\1", line)]


def anchor(title):
    return re.sub(r"[^\w -]", "", title).lower().replace(" ", "-")


def reflowed(text):
    """paragraphs in lines of one length, with a blank line behind each; headings and tables stay"""
    out = []
    for part in text.strip("\n").split("\n\n"):
        mark = "> " if part.startswith(">") else ""
        stays = part.startswith(("#", "|"))
        out += part.split("\n") if stays else filled(re.sub(r"(?m)^> ", "", part), first=mark, more=mark)
        out.append("")
    return out


def whole(out, page):
    """a page with its head and its end"""
    titles = [title for other, title, _, _ in chapters.CHAPTERS if other == page]
    head = chapters.HEAD if page == "main" else chapters.FORMAT_HEAD
    contents = ["- [%s](#%s)" % (title, anchor(title)) for title in titles]
    tail = reflowed(chapters.TAIL)[:-1] + ["| `%s` | %s |" % row for row in chapters.OTHERS] if page == "format" else []
    return "\n".join(line.rstrip() for line in reflowed(head) + contents + [""] + out + tail).rstrip().split("\n")


# ---- checks


def faults_of(writer, pages):
    """what is wrong with the pages, whatever stands in docs"""
    reached, names, by_name = writer.reached, writer.names, collections.defaultdict(set)
    faults = ["%s %s: no definition of %s" % (d.place, d.name, word) for d in reached for word in citations(d)[1]] + writer.unlike
    for d in reached:
        by_name[names.of(d)].add(d)
        if d not in writer.where:
            faults.append("cited, and on no page: %s %s" % (d.path, d.name))
        elif not is_in(pages[writer.where[d]], names.of(d)) and not d.name.endswith("::ALL"):
            faults.append("not printed: %s %s" % (d.path, d.name))
        if d.name.endswith("::ALL") and d.name[:-5] in writer.enums and not tables.in_order(d, writer.enums[d.name[:-5]]):
            faults.append("%s: in another order than the cases" % d.name)
    faults += ["%s means %d things" % (name, len(found)) for name, found in by_name.items() if len(found) > 1]
    told = set(re.findall(r"[^\s`():,;|.]+", "\n".join(text_of("library.txt")) + chapters.HEAD))
    faults += ["library.txt doesn't tell of %s" % word for word in sorted(set().union(*map(words_of_std, reached)) - told)]
    listed, files = [name for chapter in chapters.CHAPTERS for name in chapter[3].split()], {d.place for d in reached}
    faults += ["chapters.py has %s %s" % (name, "twice" if name in files else "which nothing cites") for name in sorted(set(listed))
               if listed.count(name) > 1 or name not in files]
    keys = {key_of(d) for d in reached}
    return faults + ["no page has %s, which av1.txt names" % key for key in AV1 if key not in keys]


def is_in(lines, name):
    """whether a page defines a name: at the left end of a line, as a row or a column of a table, or in the words of one"""
    own = re.compile(r"(record |data )?KEY(?![\w'])( [^=]*)?:( |$)|\| \[`KEY`\]|\*\*\[`KEY`\]|.*`KEY` is true of|\w+( +[\w.]+)*  +KEY( |$)|.* {6}KEY:"
                     .replace("KEY", re.escape(name)))
    return any(own.match(line) for line in lines)


def faults_of_library():
    """lines of library.txt that the toolchain's library, if it is at hand, doesn't have"""
    if not shutil.which("rt"):
        return []
    kit = os.path.dirname(subprocess.run(["rt", "doc"], capture_output=True, text=True, check=False).stdout.split("\n")[0].strip())
    stands, faults, inside = "", [], False
    for line in text_of("library.txt"):
        found = re.match(r"`(\S+\.antt)`", line)
        path = os.path.join(kit, "rattle", found[1]) if found else ""
        if os.path.exists(path):
            with open(path, encoding="utf8") as handle:
                stands = re.sub(r"\s+", " ", handle.read().replace("abbrev pub ", ""))
        inside = inside != line.startswith("```")
        if inside and stands and line.strip() and not line.startswith("```") and re.sub(r"\s+", " ", line.strip()) not in stands:
            faults.append("library.txt: the library doesn't say: %s" % line)
    return faults


def faults_of_files(pages):
    """how the pages in docs differ from these"""
    faults = []
    for page, lines in pages.items():
        stands = read(PAGES[page]) if os.path.exists(os.path.join(TOP, PAGES[page])) else []
        differ = list(difflib.unified_diff("\n".join(stands).rstrip().split("\n"), lines, PAGES[page], "what trusted.py prints", lineterm="", n=0))
        renew = "`tools/trusted/trusted.py%s > %s` writes it anew" % (" --format" * (page == "format"), PAGES[page])
        faults += differ[:20] + [renew] * bool(differ)
    return faults


def count(writer, pages):
    for page, lines in pages.items():
        print("%-24s %5d lines %6d words %4d definitions" % (
            PAGES[page], len(lines), len(" ".join(lines).split()), sum(where == page for where in writer.where.values())))
    specs = [d for d in writer.reached if not d.is_rust]
    print("%d definitions in %d files, and %d types and constants of Rust" % (
        len(specs), len({d.path for d in specs}), len(writer.reached) - len(specs)))


def main():
    parser = argparse.ArgumentParser(description=__doc__.split("\n")[0])
    parser.add_argument("--root", action="append", default=[], help="prints the definitions of another theorem")
    parser.add_argument("--check", action="store_true", help="fails if a page is out of date or lacks a definition")
    parser.add_argument("--count", action="store_true", help="prints how many definitions, lines and words there are")
    parser.add_argument("--format", action="store_true", help="prints the second page")
    asked = parser.parse_args()
    writer = Writer(closure([d for root in asked.root for d in roots_of(root)] if asked.root else contract.roots()), bool(asked.root))
    pages = {page: out if asked.root else whole(out, page) for page, out in writer.pages().items()}
    if asked.count:
        count(writer, pages)
        return 0
    if not asked.check:
        print("\n".join(pages["format" if asked.format else "main"]))
        return 0
    faults = faults_of(writer, pages) + faults_of_library() + faults_of_files(pages)
    print("\n".join(faults) if faults else "both pages are what trusted.py prints: %d definitions" % len(writer.reached))
    return 1 if faults else 0


if __name__ == "__main__":
    sys.exit(main())
