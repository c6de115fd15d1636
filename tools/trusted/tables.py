"""What the pages fold into tables: enumerations with what functions give of their cases, records, and tables of numbers."""
import re
import chapters
from definitions import citations
from notation import WIDTH, WORDS_BEFORE, equations

FOLDED = ("BlockSize", "TxSize", "TxType", "PredictionMode", "RefType", "FilterMode")


def sentence(note):
    """words as a sentence"""
    note = re.sub(r"\s+", " ", note).strip().rstrip(".")
    return (note[:1].upper() + note[1:] if re.match(r"[a-z]{2}|a ", note) else note) + "." if note else ""


def lowered(note):
    """words that go on with a line"""
    text = " ".join(note).rstrip(".")
    return " " + text[:1].lower() + text[1:] if text else ""


def cases(d):
    """the cases of an enumeration without fields"""
    if not d.is_rust or " enum " not in " " + d.lines[0]:
        return None
    found = [re.fullmatch(r"(\w+),", line.strip()) for line in d.lines[1:-1] if not line.strip().startswith("//")]
    return [m[1] for m in found] if found and all(found) else None


def column_of(d, enums):
    """of a function that gives a constant for each case: its enumeration, and what stands beside each case"""
    parts = [] if d.is_rust or "◌" in d.name else equations(d.lines)
    found = parts and re.match(r"\S+ : (\w+) → ", re.sub(WORDS_BEFORE, "", " ".join(parts[0])))
    if not found or found[1] not in enums or len(parts) < 3:
        return None
    values, every = {}, cases(enums[found[1]])
    for part in parts[1:]:
        m = re.fullmatch(r"%s (\S+) = (.+)" % re.escape(d.name), " ".join(line.strip() for line in part))
        if not m or len(m[2]) > 24 or not re.fullmatch(r"(Ok |pos )?\w+|Err \(record \{\}\)", m[2]):
            return None
        case, value = m[1], "-" if m[2].startswith("Err") else re.sub(r"^(Ok|pos) ", "", m[2])
        is_variable = case not in every and re.fullmatch(r"[a-z_]\w*", case)
        for other in every if is_variable else [case]:
            values.setdefault(other, other if value == case and is_variable else value)
    return (found[1], values) if set(values) == set(every) else None


def beside(rows, heads):
    """a table of words, side by side as often as there is room"""
    widths = [max(len(row[i]) for row in rows + [heads]) for i in range(len(heads))]
    lines = ["  ".join(cell.ljust(width) for cell, width in zip(row, widths)) for row in [heads] + rows]
    count = max(1, min((WIDTH + 4) // (len(lines[0]) + 4), (len(rows) + 5) // 6))
    each = -(-len(rows) // count)
    blocks = [[lines[0]] + lines[1 + i * each:1 + (i + 1) * each] for i in range(count)]
    return ["    ".join(block[n] if n < len(block) else " " * len(lines[0]) for block in blocks).rstrip() for n in range(each + 1)]


def short(word):
    return re.sub(r"^(BLOCK|TX)_(?=\d)", "", "-" if word == "false" else word)


def is_test(values):
    """whether a column is true of one case alone"""
    return sorted(values.values())[-2:] == ["false", "true"]


def enumeration(enum, columns, names, is_first):
    """an enumeration in words, and its table; columns are functions, each with its values"""
    tests = [(d, values) for d, values in columns if is_test(values)]
    rest = [(d, values) for d, values in columns if not is_test(values)]
    text = ["**[`%s`](../%s#L%d)**%s" % (enum.name, enum.path, enum.line, " " + sentence(enum.note) if is_first else ":")]
    text += ["`%s`:%s." % (names.of(d), lowered([d.note])) for d, _ in rest if d.note and d.name in chapters.SPOKEN]
    text += ["`%s` is true of %s alone." % (names.of(d), next(c for c, v in values.items() if v == "true")) for d, values in tests]
    text += ["(%s)" % ", ".join("[%s](../%s)" % link for link in dict.fromkeys((d.place, d.path) for d, _ in columns))]
    rows = [[short(case)] + [short(values[case]) for _, values in rest] for case in cases(enum)]
    rows = [row for row in rows if is_first or set(row[1:]) != {"-"}]
    return text, beside(rows, [enum.name] + [names.of(d) for d, _ in rest]) if rest else []


def in_order(constant, enum):
    """whether a constant `ALL` has the cases of its enumeration in their order"""
    return re.findall(r"%s::(\w+)" % enum.name, " ".join(constant.lines[1:])) == cases(enum)


def is_record(d):
    """a record or an enumeration, which stands in a chapter's table"""
    if d.is_rust:
        return not d.is_constant()
    return re.match(r"\s*(?:pub )?(record|data) \S+ : Type 0 where", d.lines[0]) is not None


def grouped(fields):
    """the fields of a record, with those beside each other that have one type: `x, y: u16`"""
    out = []
    for text in fields:
        name, _, kind = text.strip("`").partition(": ")
        if out and re.fullmatch(r"\w+", name) and out[-1].endswith(": %s`" % kind) and " " not in out[-1].split(": ")[0].replace(", ", ""):
            out[-1] = "`%s, %s: %s`" % (out[-1][1:].rpartition(": ")[0], name, kind)
        else:
            out.append(text)
    return out


def fields_of_rust(d):
    """the fields or cases of a type, with their words if chapters.FIELDS_TOLD has it or it is an enumeration"""
    note, out, inner = [], [], None
    is_told = d.name in chapters.FIELDS_TOLD or cases(d)
    for line in map(str.strip, d.lines[1:-1]):
        if line.startswith("//"):
            note.append(line.strip("/ "))
        elif inner is not None and not line.startswith("}"):
            inner.append(line.rstrip(","))
        elif line.endswith("{"):
            head, inner, kept, note = line[:-1].strip(), [], note, []
        elif line.startswith("}"):
            out.append("`%s { %s }`%s" % (head, ", ".join(inner), lowered(kept) if is_told else ""))
            inner, note = None, []
        else:
            out.append("`%s`%s" % (re.sub(r"^pub(\(crate\))? ", "", line.rstrip(",")), lowered(note) if is_told else ""))
            note = []
    return "; ".join(grouped(out)) or "nothing"


def fields_of_specs(d, lines):
    """the fields or cases of a record of specs, of its lines with the names of the pages"""
    out = [re.sub(r"^pub ", "", line.strip()).replace(" :", ":", 1) for line in lines[1:] if line.strip() and not line.strip().startswith("--")]
    if re.match(r"\s*(pub )?data", d.lines[0]) and all(line.endswith(": " + d.name) and "→" not in line for line in out):
        return ", ".join("`%s`" % name for line in out for name in line.split(":")[0].split())
    return "; ".join(grouped("`%s`" % line for line in out))


def row_of(d, name, lines):
    """a record, an enumeration or a constant as a row of a chapter's table"""
    if d.is_constant():
        what, inside = "constant", "`%s`" % d.lines[0].partition("= ")[2].rstrip(";")
    else:
        what = sentence(d.note.split(". ")[0]).replace("|", "/") if d.name in chapters.SPOKEN else ""
        inside = fields_of_rust(d) if d.is_rust else fields_of_specs(d, lines)
    return "| [`%s`](../%s#L%d) | %s | %s |" % (name, d.path, d.line, what, inside)


def rows_of_numbers(d):
    """the rows of a list of lists of numbers, eight in each"""
    if d.is_rust or not re.search(r": List \(List ℤ\)$", d.lines[0]):
        return None
    rows = [re.findall(r"(pos|minus) (\d+)", line) for line in d.lines[2:] if line.strip() != "[]"]
    return [[("-" if sign == "minus" else "") + n for sign, n in row] for row in rows] if rows and all(len(r) == 8 for r in rows) else None


def numbers(found, names):
    """tables of numbers, three side by side"""
    out = []
    for some in (found[i:i + 3] for i in range(0, len(found), 3)):
        rows = [rows_of_numbers(d) for d in some]
        out += ["", "      ".join(("%s: List (List ℤ)" % names.of(d)).ljust(32) for d in some).rstrip()]
        out += ["      ".join("".join(cell.rjust(4) for cell in table[n]) for table in rows) for n in range(len(rows[0]))]
    return out


def types_of(files, reached, before):
    """the types of Rust that these files are the first to cite"""
    waiting, types = [o for d in reached if d.place in files and not d.is_rust for o in citations(d)[0] if o.is_rust], []
    while waiting:
        d = waiting.pop(0)
        if d not in types and d not in before:
            types.append(d)
            waiting += [o for o in citations(d)[0] if o.is_rust]
    return types
