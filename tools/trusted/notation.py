"""How the pages print a definition: its file's words in their order, with a few signs, and in fewer lines.

The rules change only the look, and the head of the page names each rule. A definition of one equation has its types beside its arguments;
`nat_lt a b` becomes `a < b`, `x ∷ y ∷ []` becomes `[x, y]`, `pos 3` becomes `3`, `at v i` becomes `v[i]`; operators between single words
stand close (`2^k`, `a-1`). `alike.py` reads what is printed and compares it with the file."""
import re
import textwrap
from definitions import indent

WIDTH = 120
PLACE = "\x01at"                                                        # the function that gives place i of a list
TOKEN = re.compile(r"--\s.*$|\"[^\"]*\"|\[\]|[()\[\]{};,]|[^\s()\[\]{};,\"]+")
TESTS = {"nat_lt": "<", "nat_le": "≤", "int_lt": "<", "int_eq": "=="}
CLOSING = {"(": ")", "[": "]", "{": "}"}
CLOSE = ("^", "*", "/", "%", "+", "-")
BREAKS = {"=", "++", "then", "else", "in", "↦", "|", ":", ";", ",", "≡", "×", "done", "←", "if", "let", "→", "++>"}
OPERATORS = set(CLOSE) | BREAKS | {"&&", "||", "==", "<", "≤", "∷", "+ℤ", "-ℤ", "*ℤ", "≢", "¬", "λ", ">>=", "<ℤ", "≤ℤ"}
WORDS_BEFORE = r"^(?:(?:abbrev|unfoldable|opaque|pub) )+"


class Group:
    """what stands in brackets, with what follows without a space, as `.x`"""

    def __init__(self, open_, items, suffix=""):
        self.open, self.items, self.suffix = open_, items, suffix


def tree(text):
    """the words of a line, with what stands in brackets as one"""
    stack, end = [Group("", [])], -1
    for m in TOKEN.finditer(text):
        word = m[0]
        if word in CLOSING:
            stack.append(Group(word, []))
        elif word in CLOSING.values() and len(stack) > 1 and CLOSING[stack[-1].open] == word:
            done = stack.pop()
            stack[-1].items.append(done)
        elif word.startswith(".") and m.start() == end and isinstance((stack[-1].items or [""])[-1], Group):
            stack[-1].items[-1].suffix = word
        else:
            stack[-1].items.append(word)
        end = m.end()
    while len(stack) > 1:                                               # a bracket that this line leaves open
        done = stack.pop()
        done.suffix = None
        stack[-1].items.append(done)
    return stack[0].items


def bare(item):
    """an argument without its brackets, if it reads as well without"""
    if isinstance(item, Group) and item.open == "(" and item.suffix == "":
        inner = shown(item.items)
        if not re.search(r"(^|\s)(if|let|λ|<|≤|==|&&|\|\||∷)(\s|$)|,", inner):
            return inner
    return shown([item])


def is_atom(item):
    return isinstance(item, Group) and item.open in "([" or isinstance(item, str) and item not in OPERATORS


def with_signs(items):
    """tests, numbers and places of lists"""
    items, n = list(items), 0
    while n < len(items):
        word, rest = items[n], items[n + 1:]
        if word in TESTS and len(rest) > 1 and all(map(is_atom, rest[:2])):
            items[n:n + 3] = ["\x00%s %s %s" % (bare(rest[0]), TESTS[word], bare(rest[1]))]
        elif word == PLACE and len(rest) > 1 and isinstance(rest[0], str) and is_atom(rest[1]):
            items[n:n + 3] = ["%s[%s]" % (rest[0], bare(rest[1]))]
        elif word == "pos" and rest and isinstance(rest[0], str) and rest[0].isdigit():
            items[n:n + 2] = [rest[0]]
        n += 1
    return items


def shown(items):
    """the words of one level, as they are printed"""
    return close([word_of(item) if isinstance(item, Group) else item for item in with_lists(with_signs(items))])


def word_of(group):
    """what stands in brackets, in one word"""
    inner = shown(group.items)
    if group.suffix is None:
        return group.open + inner
    if group.open == "(" and group.suffix == "" and re.fullmatch(r"[\w.']*\[[^\[\]]+\]|\d+", inner):
        return inner
    if re.fullmatch(r"\d+, \d+", inner):                               # a pair of numbers stays in one line
        inner = inner.replace(" ", "")
    if group.open == "{" and not inner.strip("0 "):                     # `Unit {0}`, `record {}`
        return "{}" if not inner else ""
    space = " " if group.open in "[{" else ""
    return group.open + space + inner + space + CLOSING[group.open] + group.suffix


def with_lists(items):
    """`x ∷ y ∷ []` as `[x, y]`"""
    out, part = [], []
    for item in items + [None]:
        if item is None or item in BREAKS or isinstance(item, str) and item.endswith("."):
            out += as_list(part) + ([item] if item else [])
            part = []
        else:
            part.append(item)
    return out


def as_list(part):
    if len(part) < 3 or part[-1] != "[]" or part[-2] != "∷":
        return part
    elements, current = [], []
    for item in part[:-1]:
        if item == "∷":
            elements.append(current)
            current = []
        else:
            current.append(item)
    texts = [bare(e[0]) if len(e) == 1 else shown(e) for e in elements]
    are_numbers = all(re.fullmatch(r"-?\d+", t) for t in texts) and len(texts) > 3
    return ["[" + (" " if are_numbers else ", ").join(texts) + "]"]


def close(words):
    """the words with a space between them, but for operators between single ones; sums stand close only where all of a bracket does"""
    words = [word.lstrip("\x00").replace("\x01", "") for word in words]
    tight = set()
    for some in (("^",), ("*", "/", "%")):                              # what binds closer first
        tight |= {n for n in range(1, len(words) - 1) if words[n] in some and stands_close(words, n, tight)}
    text = re.sub(" ?\x02 ?", "", " ".join("\x02%s\x02" % word if n in tight else word for n, word in enumerate(words)))
    if re.fullmatch(r"[^\s()]{1,12}( [+-] [^\s()]{1,12}){1,2}", text):
        text = text.replace(" ", "")
    return re.sub(r" ([,;)])", r"\1", re.sub(r"(?<=\S)  +", " ", text)).rstrip()


def stands_close(words, n, tight):
    """whether the operator at place n stands between single words; in `a / b * c` either both do or none"""
    left, right = words[n - 1], words[n + 1]
    before, after = (words[n - 2] if n > 1 else None), (words[n + 2] if n + 2 < len(words) else None)
    if {left, right} & OPERATORS or " " in left + right or not is_single(before) or not is_single(after):
        return False
    return (words[n] == "^" or before not in CLOSE[:4] or before == "^" and n - 2 in tight) and (after != "^" or n + 2 in tight)


def is_single(word):
    """whether no further argument stands beside an operand"""
    return word is None or word in OPERATORS or word in (",", ";") or word.startswith("--")


def printed(line):
    """a line of a definition"""
    room = line[:indent(line)]
    return line if line.strip().startswith("--") else room + shown(tree(line.strip()))


def filled(text, width=100, first="", more=""):
    """words in lines"""
    text = re.sub(r"[ \t\n]+", " ", text).strip()
    return textwrap.wrap(text, width, initial_indent=first, subsequent_indent=more, break_long_words=False, break_on_hyphens=False)


def wrapped(line):
    """a line, broken if it is longer than the page"""
    if len(line) <= WIDTH:
        return [line]
    inner = " " * indent(line) + ("-- " if line.lstrip().startswith("--") else "    ")
    lines = textwrap.wrap(line, WIDTH, subsequent_indent=inner, break_long_words=False, break_on_hyphens=False)
    if lines[-1].strip() == "=":
        lines = textwrap.wrap(line, WIDTH - 2, subsequent_indent=inner, break_long_words=False, break_on_hyphens=False)
    return lines


def equations(lines):
    """the signature of a definition and its equations, each as a list of lines"""
    base, parts = indent(lines[0]), []
    for line in filter(str.strip, lines):
        if indent(line) == base and not line.strip().startswith(("}", ")")) or not parts:
            parts.append([])
        parts[-1].append(line[base:])
    return parts


def folded(lines):
    """an equation with what was broken for room in one line again; conditions, `let` and `do` keep theirs"""
    out, depth, in_where = [lines[0]], 0, "where" in lines[0]
    for line in lines[1:]:
        text = line.strip()
        in_where = in_where or text == "where"
        starts = re.match(r"(let|if|then|else|where|\w+ ←|done|do)\b|--", text) and depth <= 0
        follows = re.search(r"(\bin|\bdo|\bwhere|←.*)$", out[-1].strip()) and depth <= 0
        if in_where or starts or follows:
            out.append(line)
        else:
            out[-1] += " " + text
        depth = out[-1].count("{") - out[-1].count("}")
    return out


def split_type(text):
    """the parts of a type between its arrows"""
    parts, depth = [""], 0
    for letter in text:
        depth += (letter in "({") - (letter in ")}")
        if letter == "→" and depth == 0:
            parts.append("")
        else:
            parts[-1] += letter
    return [part.strip() for part in parts]


def arguments(parts):
    """the types of the arguments that a signature asks for: implicit ones are left out"""
    found = []
    for part in parts:
        groups = re.findall(r"\{[^{}]*\}|\((?:[\w' ]+) : (?:[^()]|\([^()]*\))*\)", part)
        if not groups or "".join(groups).replace(" ", "") != part.replace(" ", ""):
            found.append(part)
            continue
        for names, _, kind in (group[1:-1].partition(" : ") for group in groups if group[0] == "("):
            found += [kind.strip()] * len(names.split())
    return found


def unbracketed(kind):
    return kind[1:-1] if re.fullmatch(r"\((?:[^()]|\([^()]*\))*\)", kind) else kind


def merged_head(name, parts):
    """`f (a b: A): B` for a definition of one equation whose arguments are variables; else None"""
    if len(parts) != 2 or any("where" in line.split() for line in parts[1]):
        return None
    signature = re.match(r"(\S+) : (?:\{[^{}]*\} → |\{[^{}]*\} (?=\())?(.*)$", re.sub(WORDS_BEFORE, "", " ".join(map(str.strip, parts[0]))))
    given = re.match(r"(\S+)(?: \{\w+\})?((?: [\w']+)*) =(?: |$)", parts[1][0])
    if not signature or not given:
        return None
    kinds, names = split_type(signature[2]), given[2].split()
    asked = arguments(kinds[:-1])
    if len(names) > len(asked) or any(word[0].isupper() and len(word) > 3 or word in ("zero", "tt") for word in names):
        return None
    groups = []
    for word, kind in zip(names, asked):
        if groups and groups[-1][1] == kind:
            groups[-1][0].append(word)
        else:
            groups.append(([word], kind))
    heads = ["(%s: %s)" % (" ".join(words), unbracketed(printed(kind))) for words, kind in groups]
    return " ".join([name] + heads) + ": " + printed(" → ".join(asked[len(names):] + kinds[-1:])) + " ="


def joined_fields(lines):
    """the head of a record in one line, and each of its fields"""
    out = []
    for line in lines:
        line = re.sub(r"^((?:  )*)pub ", r"\1", re.sub(WORDS_BEFORE, "", line))
        is_more = indent(line) > 2 or not re.search(r"\bwhere\b", " ".join(out))
        if out and is_more and not out[-1].strip().startswith("--") and not line.strip().startswith("--"):
            out[-1] += " " + line.strip()
        else:
            out.append(line)
    out[0] = re.sub(r" \{[^{}]*\}(?= \()", "", out[0])
    return out


def looks_of(d, name, lines):
    """the lines of a definition, and pairs of texts that have to say the same: the file's and the page's"""
    parts, pairs = equations(lines), []
    if d.has_constructors() or "record " in parts[0][0]:
        text = joined_fields([line for part in parts for line in part])
        looks = [printed(line) for line in text]
        return [p for line in looks for p in wrapped(line)], [("\n".join(text), "\n".join(looks))]
    head, out = merged_head(name, parts), [d.infix.strip()] if d.infix else []
    if head is None:
        signature = re.sub(WORDS_BEFORE + r"\S+", name, " ".join(map(str.strip, parts[0])))
        out += wrapped(printed(re.sub(r"(?<=: )\{[^{}]*\} (?:→ )?", "", signature, count=1)))
    for part in parts[1:]:
        text = folded(part)
        text[0] = re.sub(r"^(\S+) \{\w+\}(?= )", r"\1", text[0])
        looks = [printed(line) for line in text]
        pairs.append(("\n".join(text), "\n".join(looks)))
        if head:
            first = looks[0].split(" = ", 1)[1:] if " = " in looks[0] else []
            looks = [head] + ["    " + line for line in first] + looks[1:]
        out += in_one(looks)
    return out, pairs


def in_one(looks):
    """an equation in one line, if there is room and it has no steps"""
    whole = " ".join([looks[0]] + [line.strip() for line in looks[1:]])
    if len(whole) <= WIDTH and not re.search(r"\b(do|where|let)\b", whole):
        return [whole]
    starts = len(looks) > 1 and re.match(r"\s*(do$|record \{|elim)", looks[1])
    looks = [looks[0] + " " + looks[1].strip()] + looks[2:] if starts else looks
    return [p for line in looks for p in wrapped(line)]
