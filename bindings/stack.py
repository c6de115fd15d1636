#!/usr/bin/env python3
"""Computes a bound on the stack that each call of an archive takes, from the archive's code.

    bindings/stack.py [--check] ARCHIVE

The archive is linked into a shared library and disassembled by `objdump`. In each function, the depth of the stack is
followed along all paths from its entry. A call adds its return address and all that the called function takes. So the
sum is a bound for all arguments. It includes the 128 bytes below the stack pointer that a function may use, and excludes
what functions of the C library take (the output lists them). It fails if it cannot follow the code: at recursion (except
the functions in NESTED), at a call by a pointer, and at a frame without a fixed length.

`c/stack.c` makes each call with many arguments and measures how deep it goes, which must not exceed the bound. The output
has for each call the bound and the measured depth, in bytes. With --check the bound must not exceed what the table in
docs/LIBRARY.md says. The status is 1 if a check fails. It needs gcc and binutils.
"""
import pathlib
import re
import subprocess
import sys
import tempfile

HERE = pathlib.Path(__file__).resolve().parent
RED_ZONE = 128
# How many calls of a function that calls itself there are at once, at most. The first is given a level from 4 on and calls
# itself at the level below, as its contract says, down to 0; the second one so a count from 31 on.
NESTED = {"av1_plan::nodes::Parser::block": 5, "av1_tiles::bounds::starts": 32}
WORD = 8
HEAD = re.compile(r"^([0-9a-f]+) <(.+)>:$")
LINE = re.compile(r"^ *([0-9a-f]+):\t(.*)$")
TARGET = re.compile(r"^([0-9a-f]+) <(.+?)(\+0x[0-9a-f]+)?>$")
OUTSIDE = re.compile(r"^\*0x[0-9a-f]+\(%rip\) +# [0-9a-f]+ <(\w+)@[\w.]+>$")
PADDING = ("nop", "int3", "xchg   %ax,%ax", "data16", "cs nop")
ENDS = ("ret", "repz ret", "ud2", "hlt", "int3")
PREFIXES = re.compile(r"^(?:(?:notrack|bnd|addr32|data16|rex\.W|lock|repz|repnz|rep|cs|ds) )+(?=\w)")


class Unknown(Exception):
    """What the stack's depth can't be followed through."""


def signed(word):
    value = int(word, 16)
    return value - (1 << 64) if value >> 63 else value


class Function:
    """The instructions of a function: for each its address, its name and its operands."""

    def __init__(self, name):
        self.name = name
        self.lines = []

    def add(self, address, text):
        words = PREFIXES.sub("", text.strip()).split(None, 1)
        self.lines.append((address, words[0], words[1].strip() if len(words) > 1 else "", text.strip()))

    def depths(self):
        """For each instruction that can be come to the depth at which it begins, and what it does with it."""
        self.index = {line[0]: number for number, line in enumerate(self.lines)}
        self.found, self.jumps = {}, []
        self.follow([(0, 0, None)])
        while self.jumps:
            seeds = self.unseen()
            if not seeds:
                break
            depth, base = max(self.jumps)
            self.follow([(seeds[0], depth, None if base < 0 else base)])
        return self.found

    def unseen(self):
        """Where runs of instructions begin that no way has come to, as those behind a table of jumps."""
        return [number for number, line in enumerate(self.lines)
                if number not in self.found and not line[3].startswith(PADDING)]

    def follow(self, waiting):
        steps = 0
        while waiting:
            number, depth, base = waiting.pop()
            if number in self.found and self.found[number][0] >= depth:
                continue
            steps += 1
            if steps > 100 * len(self.lines):
                raise Unknown("%s: the stack grows in a loop" % self.name)
            self.found[number] = (depth, base)
            waiting += self.next(number, depth, base)

    def next(self, number, depth, base):
        address, name, operands, text = self.lines[number]
        if name in ENDS or text in ENDS:
            return []
        depth, base = self.moved(name, operands, text, depth, base)
        behind = [(number + 1, depth, base)] if number + 1 < len(self.lines) else []
        if not name.startswith("j"):
            return behind
        target = TARGET.match(operands)
        if not target:
            if OUTSIDE.match(operands):
                return []
            self.jumps.append((depth, base if base is not None else -1))
            return []
        to = self.index.get(int(target[1], 16))
        there = [] if to is None else [(to, depth, base)]
        return there if name == "jmp" else there + behind

    def moved(self, name, operands, text, depth, base):
        """The depth behind an instruction, and the depth to which the frame's pointer leads."""
        if name.startswith("push"):
            return depth + WORD, base
        if name.startswith("pop") and "popcnt" not in name:
            return depth - WORD, (None if operands == "%rbp" else base)
        if name == "leave":
            return base - WORD, None
        if operands == "%rsp,%rbp" and name == "mov":
            return depth, depth
        if not operands.endswith(",%rsp") or name in ("cmp", "test"):
            return depth, base
        by = re.match(r"^\$0x([0-9a-f]+),%rsp$", operands)
        if name in ("sub", "add") and by:
            return depth + (signed(by[1]) if name == "sub" else -signed(by[1])), base
        if name == "and" and by:
            return depth - signed(by[1]) - WORD, base
        if name == "mov" and operands == "%rbp,%rsp" and base is not None:
            return base, base
        by = re.match(r"^(-?)0x([0-9a-f]+)\(%(rsp|rbp)\),%rsp$", operands)
        if name == "lea" and by and (by[3] == "rsp" or base is not None):
            offset = -int(by[2], 16) if by[1] else int(by[2], 16)
            return (depth if by[3] == "rsp" else base) - offset, base
        raise Unknown("%s: %s" % (self.name, text))

    def calls(self):
        """The functions that are called or jumped to, each with the depth at which it begins."""
        for number, (depth, base) in self.depths().items():
            address, name, operands, text = self.lines[number]
            if not (name.startswith("call") or name.startswith("j")):
                continue
            more = WORD if name.startswith("call") else 0
            target, outside = TARGET.match(operands), OUTSIDE.match(operands)
            if outside:
                yield outside[1], depth + more
            elif target and (int(target[1], 16) not in self.index or (more and int(target[1], 16) == self.lines[0][0])):
                yield target[2], depth + more
            elif not target and more:
                raise Unknown("%s: %s" % (self.name, text))


def on_the_stack():
    """The bytes of the arguments of each call that are passed on the stack: all behind the sixth."""
    text = (HERE / "c" / "declared.c").read_text("utf8")
    counts = {name: listed.count(",") + 1 for name, listed in re.findall(r"^(?:tilg_status|uint32_t) (tilg_\w+)\((.*?)\);", text, re.M | re.S)}
    return {name: -(-max(0, count - 6) // 2) * 2 * WORD for name, count in counts.items()}


def seen(archive):
    """How deep each call went, as c/stack.c tells it."""
    with tempfile.TemporaryDirectory() as work:
        # By -maccumulate-outgoing-args the calls of a function all begin at one place of the stack.
        subprocess.run(["gcc", "-O2", "-maccumulate-outgoing-args", "-Wall", "-Wextra", "-Werror", HERE / "c" / "stack.c", archive,
                        "-Wl,-z,now", "-o", work + "/stack"], check=True)
        plan = HERE.parent / "crates" / "av1_vectors" / "stdin"
        told = subprocess.run([work + "/stack", plan], check=True, capture_output=True, text=True).stdout
    return {name: int(number) for name, number in (line.split() for line in told.splitlines())}


def functions_of(archive):
    with tempfile.TemporaryDirectory() as work:
        library = work + "/library.so"
        subprocess.run(["gcc", "-shared", "-o", library, "-Wl,--whole-archive", archive, "-Wl,--no-whole-archive",
                        "-Wl,--version-script=%s" % (HERE / "c" / "tilgwaren.map")], check=True)
        told = subprocess.run(["objdump", "-d", "--no-show-raw-insn", library], check=True, capture_output=True, text=True)
    functions, function = {}, None
    for line in told.stdout.splitlines():
        head, body = HEAD.match(line), LINE.match(line)
        if head:
            function = functions.setdefault(head[2], Function(head[2]))
        elif body and function:
            function.add(int(body[1], 16), body[2])
    return functions


class Stack:
    """What the functions of a library take of the stack."""

    def __init__(self, functions):
        self.functions = functions
        self.taken = {}
        self.outside = set()
        self.returns = 0

    def of(self, name, above=()):
        """How many bytes a function takes below its return address, and all that it calls."""
        if name.endswith("@plt") or name not in self.functions:
            self.outside.add(name.split("@")[0])
            return 0
        if name in self.taken:
            return self.taken[name]
        times, nested = above.count(name), NESTED.get(name.split("::<#")[0], 1)
        if times:
            self.returns += 1
        if times >= nested:
            if nested == 1:
                raise Unknown("%s calls itself" % name)
            return 0
        before, function = self.returns, self.functions[name]
        most = max(depth for depth, _ in function.depths().values())
        for called, depth in function.calls():
            most = max(most, depth + self.of(called, above + (name,)))
        if times == 0 and (self.returns == before or nested > 1 or not above):
            self.taken[name] = most
        return most


def stated():
    """What docs/LIBRARY.md says of each call."""
    text = (HERE.parent / "docs" / "LIBRARY.md").read_text("utf8")
    said, bytes_of = {}, 0
    for bytes_more, names in re.findall(r"^    +([\d,]+)? +(tilg_[\w, ]+)$", text, re.M):
        bytes_of = int(bytes_more.replace(",", "")) if bytes_more else bytes_of
        said.update({name.strip(): bytes_of for name in names.split(",") if name.strip()})
    return said


def main():
    words = [word for word in sys.argv[1:] if word != "--check"]
    if len(words) != 1:
        sys.exit(__doc__)
    passed, went = on_the_stack(), seen(words[0])
    stack = Stack(functions_of(words[0]))
    taken = {name: passed[name] + WORD + stack.of(name) + RED_ZONE for name in passed}
    said = stated() if "--check" in sys.argv[1:] else taken
    faults = {name: "more than the page says: correct the table in docs/LIBRARY.md" for name in taken if taken[name] > said.get(name, 0)}
    faults.update({name: "measured deeper than the bound" for name in taken if went[name] > taken[name]})
    print("bound and measured depth, in bytes")
    for name in sorted(taken):
        print("%8d %8d  %s%s" % (taken[name], went[name], name, "  " + faults[name] if name in faults else ""))
    print("not included, functions of the C library: %s" % ", ".join(sorted(stack.outside)))
    return 1 if faults or set(said) != set(taken) else 0


if __name__ == "__main__":
    sys.setrecursionlimit(10000)
    sys.exit(main())
