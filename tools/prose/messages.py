"""The messages of scripts: texts that a script prints as an error, and its usage."""
import ast
import re

# Calls and exceptions whose texts a user reads.
SAYS = {"exit", "fail", "stop", "stop_unless", "error", "warn", "Refused", "Unknown", "SystemExit"}
SHELL = re.compile(r"""(?:\becho\b|\bfail\b|\bprintf\b)\s+(?:"([^"]*)"|'([^']*)')""")


def kind_of(path, first):
    """The language of a script by its name and its first line: "py", "sh" or None."""
    if path.endswith(".py") or first.startswith("#!") and "python3" in first:
        return "py"
    return "sh" if first.startswith("#!") and first.rstrip().endswith("sh") else None


def name_of(call):
    return call.func.attr if isinstance(call.func, ast.Attribute) else getattr(call.func, "id", "")


def is_to_stderr(call):
    return name_of(call) == "print" and any(word.arg == "file" and "stderr" in ast.unparse(word.value) for word in call.keywords)


def of_python(text):
    """(number, text) of each piece of a message, and of each line of the usage at the script's head"""
    tree = ast.parse(text)
    usage = tree.body[0].value if tree.body and ast.get_docstring(tree) is not None else None
    if usage:
        yield from enumerate(usage.value.split("\n"), usage.lineno)
    for call in ast.walk(tree):
        if isinstance(call, ast.Call) and (name_of(call) in SAYS or is_to_stderr(call)):
            for piece in (it for word in call.args for it in ast.walk(word) if isinstance(it, ast.Constant)):
                if isinstance(piece.value, str):
                    yield piece.lineno, piece.value


def of_shell(text):
    """(number, text) of each message, and of each line of the comment at the script's head"""
    is_head = True
    for number, line in enumerate(text.split("\n"), 1):
        is_head = is_head and line.startswith("#")
        if is_head and not line.startswith("#!"):
            yield number, line.lstrip("# ")
        if ">&2" in line or re.search(r"\bfail\b", line):
            for found in SHELL.finditer(line):
                yield number, found[1] or found[2] or ""


def messages_of(path, text):
    kind = kind_of(path, text.split("\n", 1)[0])
    yield from of_python(text) if kind == "py" else of_shell(text) if kind == "sh" else ()
