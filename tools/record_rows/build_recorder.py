"""Builds the recorder of calls on blocks, whose results are those of rav1e's own functions.

rav1e's files are used as they are, except for what needs the rest of its crate to build; overflow wraps, as in its release build.
"""
import pathlib
import re
import shutil
import subprocess
import sys

HERE = pathlib.Path(__file__).resolve().parent
sys.dont_write_bytecode = True
sys.path.append(str(HERE.parent / "rav1e"))
from rav1e import plain

# What is cut out of a file, or put in place of it, each once.
CHANGES = {
    "partition.rs": [
        (r"^use crate::serialize::.*?\n", ""),
        (r"^use thiserror::Error;\n", ""),
        (r", Serialize, Deserialize\)\]", ")]"),
        (r"#\[derive\(Debug, Error, ", "#[derive(Debug, "),
        (r"^type IntraEdgeBuffer<T>", "pub type IntraEdgeBuffer<T>"),
        (r"^  fn new\((\s*edge_buf)", r"  pub fn new(\1"),
    ],
    "predict.rs": [
        (r"^use aligned_vec::.*?\n", ""),
        (r"^use crate::encoder::FrameInvariants;\n", ""),
        # Prediction from references, by the encoder's frames.
        (r"^  // Used by inter prediction to extract.*?^\}\n", "}\n"),
        (r"^/// A pair of buffers holding.*?^impl Default for InterCompoundBuffers.*?^\}\n", ""),
        # Luma's differences, by the encoder's tiles.
        (r"^pub fn luma_ac<.*?^\}\n", ""),
    ],
}


def changed(file, text):
    """A file of rav1e that builds alone."""
    text = plain(text)
    for pattern, new in CHANGES.get(file, []):
        text, count = re.subn(pattern, new, text, flags=re.M | re.S)
        if count != 1:
            sys.exit(f"build_recorder.py: {file} has {pattern!r} {count} times, not once: RAV1E must be the source of rav1e 0.8.1")
    return text


def build(rav1e, work):
    """The program `WORK/recorder`, from the source `rav1e` of rav1e 0.8.1."""
    (work / "transform").mkdir(parents=True, exist_ok=True)
    for file in ("mc.rs", "partition.rs", "predict.rs", "recon_intra.rs", "transform/mod.rs", "transform/inverse.rs"):
        (work / file).write_text(changed(file, (rav1e / "src" / file).read_text()))
    for file in (*HERE.glob("*.rs"), HERE.parent / "rav1e" / "numbers.rs"):
        shutil.copy(file, work)
    subprocess.run(["rustc", "--edition", "2024", "-A", "warnings", "-C", "opt-level=3", "-C", "overflow-checks=off", "-o",
                    str(work / "recorder"), str(work / "recorder.rs")], check=True)
