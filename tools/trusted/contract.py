"""The contract of the main theorem as its file has it, and what it is over: two traits, and what their kinds tell."""
import re
import chapters
from definitions import cited_by_code, read
from notation import filled, wrapped

CONTRACT = ("crates/av1_recon/src/reconstruct.rt", r"pub fn reconstruct_plan", r"\{$")
TRAITS = [
    ("crates/av1_streams/src/source.rt", r"pub trait Source", r"\}$"),
    ("crates/av1_streams/src/sink.rt", r"pub trait Sink", r"\}$"),
]
KINDS = [
    ("crates/av1_streams/src/source.rt", r"impl.* Source for SliceSource\b", r"\}$"),
    ("crates/av1_streams/src/source.rt", r"impl.* Source for ReadSource\b", r"\}$"),
    ("crates/av1_streams/src/sink.rt", r"impl.* Sink for MemSink\b", r"\}$"),
    ("crates/av1_streams/src/sink.rt", r"impl.* Sink for WriteSink\b", r"\}$"),
]


def code(path, first, last):
    """the lines of an item of Rust, from the one that begins it to its last, and the number of the first"""
    lines = read(path)
    n = next(i for i, line in enumerate(lines) if re.match(first, line))
    end = next(i for i in range(n, len(lines)) if re.match(last, lines[i]))
    return lines[n:end + (lines[end] != "{")], n + 1


def ghosts(path, first, last):
    """the lines of an `impl` that say what `left`, `taken` and `faults` are"""
    lines, _ = code(path, first, last)
    return [lines[0].rstrip(" {")] + [line for line in lines if line.startswith("    ghost ") and " = " in line]


def roots():
    """all that the contract, the clauses of its two traits, and the kinds of sources and sinks cite"""
    found = [d for item in [CONTRACT] + TRAITS for d in cited_by_code(item[0], code(*item)[0])]
    return list(dict.fromkeys(found + [d for item in KINDS for d in cited_by_code(item[0], ghosts(*item))]))


def shown():
    """the contract, its traits and their kinds"""
    lines, number = code(*CONTRACT)
    out = ["The contract ([reconstruct.rt](../%s#L%d)):" % (CONTRACT[0], number), "", "```rust"] + lines + ["```", ""]
    out += filled(chapters.TRAITS) + ["", "```rust"]
    out += [line for item in TRAITS for line in code(*item)[0] if line.strip()]
    out += ["```", "", "What they are for each kind of source and sink:", "", "```rust"]
    out += [line for item in KINDS for line in ghosts(*item)] + ["```", ""] + filled(chapters.KINDS) + [""]
    return [part for line in out for part in wrapped(line)]
