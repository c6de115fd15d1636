#!/usr/bin/env python3
"""Declares the calls of the archive to Rust, and asserts that the header declares them as they are.

    bindings/declared.py [--check]

It reads the crates `av1_c` and `av1_calls`: the size of each struct that crosses to C, the type and the offset of each
field, the number of each constant, and the parameters and the result of each call. It writes three files. The crate
`rust/sys/src/lib.rs` declares all of this. `c/declared.c` has assertions about `c/tilgwaren.h`, which compile only if they
hold. `c/tilgwaren.map` lists the calls for the linker. With --check it writes nothing, and the status is 1 if a file differs
from what it would write.
"""
import pathlib
import re
import sys
import textwrap

HERE = pathlib.Path(__file__).resolve().parent
SOURCES = [path for crate in ("av1_calls", "av1_c") for path in sorted((HERE.parent / "crates" / crate / "src").glob("*.rt"))]
BLOCKS = [HERE.parent / "crates" / "av1_blocks" / "src" / name for name in ("partition.rt", "predict.rt", "transform.rt")]

# The structs that cross to C: in Rattle and in C. In Rust they have C's names without the prefix, in camel case.
NAMES = {
    "Refusal": "tilg_refusal",
    "PartRefusal": "tilg_part_refusal",
    "TraceDifference": "tilg_difference",
    "Context": "tilg_context",
    "MotionBlock": "tilg_motion_block",
    "MotionPlane": "tilg_motion_plane",
    "MovedBlock": "tilg_moved_block",
    "IntraBlock": "tilg_intra_block",
    "EdgePlane": "tilg_edge_plane",
    "EdgeBlock": "tilg_edge_block",
    "CflBlock": "tilg_cfl_block",
    "LumaLeafBlock": "tilg_luma_block",
    "PlanHeader": "tilg_plan_header",
    "BuilderPart": "tilg_builder_part",
    "Builder": "tilg_builder",
    "NextField": "tilg_next_field",
    "Coefficient": "tilg_coefficient",
    "LeafMotion": "tilg_motion",
    "LeafNumbers": "tilg_leaf",
}
# The fields whose name in C isn't that in Rattle: C has one word for one thing.
FIELDS = {
    "TraceDifference": {"row": "y", "column": "x"},
    "MotionBlock": {"col_frac": "fraction_x", "row_frac": "fraction_y"},
    "MovedBlock": {"row": "mv_y", "col": "mv_x"},
    "CflBlock": {"xdec": "halved_columns", "ydec": "halved_rows"},
    "LumaLeafBlock": {"xdec": "halved_columns", "ydec": "halved_rows"},
    "PlanHeader": {"depth": "bit_depth"},
    "Builder": {"row": "superblock_y", "col": "superblock_x"},
    "LeafMotion": {"row": "mv_y", "col": "mv_x"},
    "LeafNumbers": {"step": "angle_step", "chroma": "has_chroma", "chroma_step": "chroma_angle_step", "uv_type": "chroma_tx_type"},
}
# The enumerations of `av1_blocks` whose variants C has with the prefix and the same numbers, except these.
ENUMERATIONS = ["BlockSize", "TxSize", "TxType", "PredictionMode", "PartitionType", "RefType"]
NOT_IN_C = {"INTRA_FRAME", "NONE_FRAME", "PARTITION_HORZ_A", "PARTITION_HORZ_B", "PARTITION_VERT_A", "PARTITION_VERT_B", "PARTITION_INVALID"}
# The numbers: in C, in C's types, and their bytes.
NUMBERS = {"u8": ("uint8_t", 1), "i8": ("int8_t", 1), "u16": ("uint16_t", 2), "i16": ("int16_t", 2), "u32": ("uint32_t", 4),
           "i32": ("int32_t", 4), "usize": ("size_t", 8), "isize": ("ptrdiff_t", 8)}
# Constants whose name in C isn't TILG_ and their own.
CONSTANTS_OF_C = {"SHARP": "TILG_FILTER_SHARP", "RAV1E_SHARP": "TILG_FILTER_RAV1E_SHARP", "FROM_LUMA": "TILG_UV_CFL_PRED"}

STRUCT = re.compile(r"#\[repr\(C\)\]\n(?:#\[derive[^\n]*\n)?pub struct (\w+) \{\n(.*?)\n\}", re.S)
FIELD = re.compile(r"^    pub (\w+): ([^\n]+),$", re.M)
CONSTANT = re.compile(r"^(pub )?const (\w+): (u8|u32|usize) = (\d+);$", re.M)
ENUMERATION = re.compile(r"^pub enum (\w+) \{\n(.*?)\n\}", re.M | re.S)
VARIANT = re.compile(r"^    (\w+)(?: = (\d+))?,$", re.M)
SIZE = re.compile(r"size_of::<(\w+)>\(\) == ([\d_]+)\)")
CALL = re.compile(r'#\[unsafe\(no_mangle\)\]\npub extern "C" fn (\w+)\((.*?)\) -> (\w+)', re.S)

HEAD = "bindings/declared.py writes this file from crates/av1_c and crates/av1_calls. It compiles only where what it says is so."
HEAD_OF_MAP = "bindings/declared.py writes this file from crates/av1_c: the calls, which are all that a shared library shows."
HEAD_OF_C = """#include "tilgwaren.h"

#ifdef __cplusplus
#include <type_traits>
#define HOLDS(e) static_assert(e, #e)
#define FIELD(s, f, p, at) HOLDS(offsetof(s, f) == at); HOLDS((std::is_same<decltype(&((s *)0)->f), p>::value))
extern "C" {
#else
#define HOLDS(e) _Static_assert(e, #e)
#define FIELD(s, f, p, at) HOLDS(offsetof(s, f) == at); HOLDS(_Generic(&((s *)0)->f, p: 1, default: 0))
#endif
"""
FOOT_OF_C = """
#ifdef __cplusplus
}
#endif"""


HEAD_OF_RUST = """//! The calls of the library `libtilgwaren.a`, as C has them. `tilgwaren.h` documents each one.
//!
//! Functions and structs have C's names without the prefix. Use the crate `tilgwaren`, whose calls are
//! safe, unless you need pointers. `bindings/declared.py` writes this file.

use std::mem::size_of;

#[cfg(not(target_pointer_width = "64"))]
compile_error!("the library is code for Linux on x86-64 or ARM64, with pointers of 64 bits");
"""
FOOT_OF_RUST = """// The symbol's name has the minor version, so a library of another minor version does not link.
#[used]
static NEEDS_VERSION: unsafe extern "C" fn() -> u32 = version_0_4;
"""


class Declared:
    """What Rattle declares."""

    def __init__(self, texts, blocks):
        self.enumerations = {name: self.variants(body) for text in blocks for name, body in ENUMERATION.findall(text) if name in ENUMERATIONS}
        every = [match for text in texts for match in CONSTANT.findall(text)]
        self.numbers = {name: int(number) for _, name, _, number in every}
        self.constants = {name: (of, int(number)) for public, name, of, number in every if public}
        self.sizes = {name: int(size.replace("_", "")) for text in texts for name, size in SIZE.findall(text)}
        structs = [match for text in texts for match in STRUCT.findall(text)]
        self.structs = {name: FIELD.findall(body) for name, body in structs if name in NAMES and name not in self.sizes}
        calls = [match for text in texts for match in CALL.findall(text)]
        self.calls = {name: (self.parameters(listed), answer) for name, listed, answer in calls}

    def variants(self, body):
        """The variants of an enumeration, each with its number."""
        numbers, number = {}, 0
        for name, given in VARIANT.findall(body):
            numbers[name] = int(given) if given else number
            number = numbers[name] + 1
        return numbers

    def parameters(self, listed):
        """The names and the types of the parameters that cross: an allocator doesn't."""
        parts = [part.split(":", 1) for part in listed.split(",") if part.strip()]
        return [(name.strip(), of.strip()) for name, of in parts if of.strip() != "Global"]

    def array(self, of):
        """The type and the number of the elements of an array, or nothing."""
        match = re.fullmatch(r"\[(\w+); (\w+)\]", of)
        return match and (match[1], int(match[2]) if match[2].isdigit() else self.numbers[match[2]])

    def layout(self, of):
        """The bytes and the alignment of a type, as C lays it out."""
        if of in NUMBERS:
            return NUMBERS[of][1], NUMBERS[of][1]
        if self.array(of):
            element, count = self.array(of)
            bytes_of, align = self.layout(element)
            return count * bytes_of, align
        places, end = self.places(of)
        align = max(self.layout(field)[1] for _, field in self.structs[of])
        return -(-end // align) * align, align

    def places(self, name):
        """The name in C, the type and the place of each field of a struct, and where the last one ends."""
        placed, end = [], 0
        for field, of in self.structs[name]:
            bytes_of, align = self.layout(of)
            at = -(-end // align) * align
            placed.append((FIELDS.get(name, {}).get(field, field), of, at))
            end = at + bytes_of
        return placed, end


def in_c(of):
    """A type that is no array, in C."""
    return NUMBERS[of][0] if of in NUMBERS else NAMES[of]


def in_rust(of):
    return of if of in NUMBERS else "".join(word.capitalize() for word in NAMES[of].split("_")[1:])


def pointer_in_c(declared, of):
    """A pointer to a type, in C."""
    array = declared.array(of)
    return "%s (*)[%d]" % (in_c(array[0]), array[1]) if array else in_c(of) + " *"


def field_in_rust(declared, of):
    array = declared.array(of)
    return "[%s; %d]" % (in_rust(array[0]), array[1]) if array else in_rust(of)


def pointed(of):
    """Of a reference: whether it is written, whether it is a slice, and to what it leads. Of a number nothing."""
    match = re.fullmatch(r"&(mut )?(\[)?(\w+)\]?", of)
    return match and match.groups()


def crossing(of):
    """What a parameter becomes in C: a slice is a pointer and a length."""
    if not pointed(of):
        return [in_c(of)]
    is_written, is_slice, element = pointed(of)
    pointer = ("%s *" if is_written else "const %s *") % in_c(element)
    return [pointer, "size_t"] if is_slice else [pointer]


def crossing_to_rust(name, of):
    """The same in Rust, with names."""
    if not pointed(of):
        return ["%s: %s" % (name, in_rust(of))]
    is_written, is_slice, element = pointed(of)
    pointer = "%s: *%s %s" % (name, "mut" if is_written else "const", in_rust(element))
    return [pointer, name + "_len: usize"] if is_slice else [pointer]


def wrapped(line):
    return textwrap.fill(line, 120, subsequent_indent="    ", break_long_words=False, break_on_hyphens=False)


def of_c(declared):
    lines = ["/* %s */" % HEAD, HEAD_OF_C]
    for name, (_, number) in declared.constants.items():
        lines.append("HOLDS(%s == %d);" % (CONSTANTS_OF_C.get(name, "TILG_" + name), number))
    for name, size in declared.sizes.items():
        lines += ["", "HOLDS(sizeof(%s) == %d);" % (NAMES[name], size)]
    for name in declared.structs:
        lines += ["", "HOLDS(sizeof(%s) == %d);" % (NAMES[name], declared.layout(name)[0])]
        for field, of, at in declared.places(name)[0]:
            lines.append("FIELD(%s, %s, %s, %d);" % (NAMES[name], field, pointer_in_c(declared, of), at))
    for variants in declared.enumerations.values():
        lines += ["", *("HOLDS(TILG_%s == %d);" % variant for variant in variants.items() if variant[0] not in NOT_IN_C)]
    lines.append("")
    for name, (types, answer) in declared.calls.items():
        words = [word for _, of in types for word in crossing(of)]
        status = in_c(answer) if name.startswith("tilg_version") else "tilg_status"
        lines.append(wrapped("%s %s(%s);" % (status, name, ", ".join(words) or "void")))
    return "\n".join(lines + [FOOT_OF_C, ""])


def struct_in_rust(declared, name):
    derived = "Clone, Copy, Debug, Default, PartialEq, Eq"
    lines = ["", "/// `%s`." % NAMES[name], "#[repr(C)]", "#[derive(%s)]" % derived, "pub struct %s {" % in_rust(name)]
    lines += ["    pub %s: %s," % (field, field_in_rust(declared, of)) for field, of, _ in declared.places(name)[0]]
    size = "const _: () = assert!(size_of::<%s>() == %d);" % (in_rust(name), declared.layout(name)[0])
    return lines + ["}", size]


def room_in_rust(name, size):
    """A struct of which only the size crosses: numbers of 32 bits."""
    lines = ["", "/// `%s`." % NAMES[name], "#[repr(C, align(64))]", "#[derive(Clone, Debug)]", "pub struct %s {" % in_rust(name)]
    return lines + ["    pub words: [i32; %d]," % (size // 4), "}"]


def call_in_rust(name, types, answer):
    """The declaration of a call, as rustfmt lays it out."""
    words = [word for parameter in types for word in crossing_to_rust(*parameter)]
    head, tail = "    pub fn %s(" % name.split("_", 1)[1], ") -> %s;" % in_rust(answer)
    line = head + ", ".join(words) + tail
    lines = [line] if len(line) <= 100 else [head, *("        %s," % word for word in words), "    " + tail]
    return ["", '    #[link_name = "%s"]' % name, *lines]


def of_rust(declared):
    lines = [HEAD_OF_RUST]
    lines += ["pub const %s: %s = %d;" % (name, *number) for name, number in declared.constants.items()]
    lines += [line for name, size in declared.sizes.items() for line in room_in_rust(name, size)]
    lines += [line for name in declared.structs for line in struct_in_rust(declared, name)]
    calls = [line for name, (types, answer) in declared.calls.items() for line in call_in_rust(name, types, answer)]
    return "\n".join(lines + ["", 'extern "C" {', *calls[1:], "}", "", FOOT_OF_RUST])


def exported(declared):
    """The calls that a shared library shows, as a linker reads it."""
    return "/* %s */\n{\n    global:\n%s    local: *;\n};\n" % (HEAD_OF_MAP, "".join("        %s;\n" % name for name in declared.calls))


def main():
    declared = Declared([path.read_text("utf8") for path in SOURCES], [path.read_text("utf8") for path in BLOCKS])
    faults = 0
    files = {"c/declared.c": of_c(declared), "c/tilgwaren.map": exported(declared), "rust/sys/src/lib.rs": of_rust(declared)}
    for path, text in ((HERE / name, text) for name, text in files.items()):
        if "--check" not in sys.argv[1:]:
            path.write_text(text, "utf8")
        elif path.read_text("utf8") != text:
            print("%s is out of date: run bindings/declared.py" % path.relative_to(HERE.parent))
            faults += 1
    print("%d structs, %d constants, %d calls" % (len(declared.structs), len(declared.constants), len(declared.calls)))
    return 1 if faults else 0


if __name__ == "__main__":
    sys.exit(main())
