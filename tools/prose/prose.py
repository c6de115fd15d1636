#!/usr/bin/env python3
"""Flags the worst patterns of prose (docs/STYLE.md) in pages, comments and messages.

    prose.py [--check | --write-baseline] [FILE..]

Reads what git tracks of *.md, //! and /// in .rt, comments in .h and specs/*.antt, without fences and text in backticks; and of
scripts in tools/, integrations/ and bindings/ their usage and their error messages. With no flag it prints every finding. --check
fails if a file has more findings of a rule than tools/prose/baseline.txt. --write-baseline stores the counts; it raises one only
in a FILE that is named.
"""
import collections
import os
import re
import subprocess
import sys

from messages import messages_of

HERE = os.path.dirname(os.path.abspath(__file__))
TOP, BASELINE = os.path.dirname(os.path.dirname(HERE)), os.path.join(HERE, "baseline.txt")
WRITTEN = {"docs/TRUSTED.md", "docs/TRUSTED_FORMAT.md", "docs/STYLE.md"}  # a tool writes the first two, the third quotes what not to write
COMMENT = {".rt": re.compile(r"\s*//[/!] ?(.*)"), ".h": re.compile(r"(?:.*?(?://|/\*+)|\s*\*(?!/)) ?(.*)"), ".antt": re.compile(r"(?:.*\s)?-- ?(.*)")}
QUOTED = r"`[^`]*`|\]\([^)]*\)|~~.*?~~"
SCRIPTS = ("tools/", "integrations/", "bindings/", "tilgwaren")
END = r"(?=[.,;:)]|$)"
RULES = {name: re.compile(pattern) for name, pattern in {
    "word": r"\b(?:residues?|refuses?|takes? (?:no )?memory|answers? (?:a|the|one|0|Ok)\b|asks? (?:nothing|for nothing)|work room)\b",
    "verb-last": r"(?:^|[.;:] )(?:(?:Read|Written|Looked at|Not tried) (?:are|is)|Of (?:a|each|all|the)\b[^:]*$)",
    "where-for-if": r"(?:^|[.;:] )Where (?!(?:to|it|things)\b)|, where (?:one|it|there) (?:is|are|has|isn't)\b|\bexactly where\b",
    "tail": r"\bbut for\b|\bbut that\b|\b(?:alone|too|besides)" + END,
    "is-no": r"(?<!there )\b(?:is|are|was|were) no (?!longer|more|less)\b|\b(?:is|are) none (?:that|of)\b",
    "pronouns": r"\b(?:those|these) (?:that|of which|it|they)\b|\bwhat (?:that|those|these|they)\b|\bthat of\b|\band (?:its|their) like\b",
    "vague": r"\bso many\b|\bwhat stands\b|\bby itself\b|\b(?:is|are) told\b|\bstands? behind\b|\bplays no part\b|\bmade (?:again|anew)\b",
    "semicolons": r"^[^|]*;[^;|]*;[^;|]*;",
}.items()}


def prose_of(path):
    """(number, text) of each line of prose in a file"""
    kind, is_fenced = os.path.splitext(path)[1], False
    with open(os.path.join(TOP, path), encoding="utf8", errors="replace") as handle:
        if kind not in COMMENT and kind != ".md":
            for number, text in messages_of(path, handle.read()):
                yield number, re.sub(QUOTED, "_", text)
            return
        for number, line in enumerate(handle, 1):
            if kind == ".md":
                is_fenced ^= line.lstrip().startswith("```")
                text = "" if is_fenced or re.match(r" {4}(?![-*\d])\S", line) else line.rstrip()
            else:
                found = COMMENT[kind].match(line)
                text = found[1] if found else ""
            yield number, re.sub(QUOTED, "_", text)


def findings(paths):
    for path in paths:
        for number, text in prose_of(path):
            for rule, pattern in RULES.items():
                for found in pattern.finditer(text):
                    yield path, number, rule, found[0].strip()


def main():
    words = [word for word in sys.argv[1:] if not word.startswith("--")]
    listed = ["git", "ls-files", "*.md", "*.rt", "*.h", "crates/*/specs/*.antt", *SCRIPTS]
    tracked = subprocess.run(listed, cwd=TOP, check=True, stdout=subprocess.PIPE, text=True).stdout.split()
    tracked = sorted({path for path in tracked if os.path.splitext(path)[1] in (".md", ".rt", ".h", ".antt", ".py", ".sh", "")})
    found = list(findings([path for path in tracked if path not in WRITTEN and (not words or path in words)]))
    counts = collections.Counter((path, rule) for path, _, rule, _ in found)
    old = collections.Counter()
    if os.path.exists(BASELINE):
        with open(BASELINE, encoding="utf8") as handle:
            old.update({(path, rule): int(count) for count, rule, path in map(str.split, handle)})
    more = sorted(key for key in counts if counts[key] > old[key])
    if "--write-baseline" in sys.argv and not (more and old and not words):
        counts.update({key: n for key, n in old.items() if words and key[0] not in words})
        with open(BASELINE, "w", encoding="utf8") as handle:
            handle.writelines("%d %s %s\n" % (counts[path, rule], rule, path) for path, rule in sorted(counts))
        return 0
    is_check = len(sys.argv) > 1 and sys.argv[1].startswith("--")
    for path, number, rule, text in found:
        if not is_check or (path, rule) in more:
            print("%s:%d: %s: %s" % (path, number, rule, text))
    print("%d findings, %d files and rules above the baseline" % (len(found), len(more)))
    return 1 if is_check and more else 0


if __name__ == "__main__":
    sys.exit(main())
