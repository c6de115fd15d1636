"""The edits that make a copy of rav1e 0.8.1 the program of the folder `wrapper`, which answers plans by rav1e's functions."""
import copy
import os
import shutil

from . import edits

FOLDER = os.path.join(os.path.dirname(edits.HERE), "wrapper")
# The edits of the recorder by which a module chooses the short filter, and says how an identity scales.
AS_AV1 = ("the short filter", "the identity of 4", "the identity of 16")

BUILD = [
    edits.Edit("a program without rav1e's own crates", "Cargo.toml", 'required-features = ["binaries"]\n', ""),
    edits.Edit("a build of the whole program at once", "Cargo.toml", 'debug = 2\nincremental = true', "debug = false\nincremental = false\ncodegen-units = 1"),
    edits.Edit("the module", "src/lib.rs", "mod predict;\n", "mod predict;\npub mod wrapper;\n"),
]
LOSSLESS = edits.Edit("lossless blocks", edits.INVERSE, "let range = cmp::max(bd + 6, 16);",
                      "let range = crate::wrapper::range_of_columns(lossless, cmp::max(bd + 6, 16));")


def of_wrapper(edit):
    """The recorder's edit, with the wrapper's module in place of the recorder's."""
    own = copy.copy(edit)
    own.new = edit.new.replace("crate::recorder::", "crate::wrapper::")
    return own


def apply(crate):
    """Makes a copy in the folder `crate` the program; ends this one if an edit doesn't apply as often as it must."""
    shutil.copytree(FOLDER, os.path.join(crate, "src/wrapper"))
    with open(os.path.join(crate, "src/bin/rav1e.rs"), "w", encoding="utf-8") as file:
        file.write("fn main() {\n  rav1e::wrapper::main()\n}\n")
    own = [of_wrapper(edit) for edit in edits.SETTINGS if edit.what in AS_AV1]
    edits.apply_all(crate, [edits.TESTS, *edits.LESS, *BUILD, *own, LOSSLESS])
