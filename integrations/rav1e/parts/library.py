"""The edits that take the block operations of a copy of rav1e from the library, once `edits.py` has made it the recorder."""
import os
import shutil

from .edits import ENCODER, HERE, Edit, apply_all, version_of

MODULE = "library.rs"
PREDICT = "src/predict.rs"
INTERNAL = "src/api/internal.rs"
LOOKAHEAD = "src/api/lookahead.rs"


class Cut(Edit):
    """An edit that puts `new` in the place of all text from the anchor `old` up to the anchor `last`, which stays."""

    def __init__(self, what, file, old, last, new):
        super().__init__(what, file, old, new)
        self.last = last

    def apply(self, text):
        self.expect(text.count(self.old), 1, self.old)
        first = text.index(self.old)
        last = text.find(self.last, first)
        self.expect(int(last >= 0), 1, self.last)
        return text[:first] + self.new + text[last:]


LUMA = ("  let leaf = crate::library::Luma {\n    block: bsize,\n    transform: tx_size,\n    xdec,\n    ydec,\n"
        "    cells: (fi.w_in_b - frame_bo.0.x, fi.h_in_b - frame_bo.0.y),\n  };\n"
        "  crate::library::luma_differences(ac, luma, leaf);\n")

# What `library.rs` has otherwise in 0.8.1: the type of a count, and a buffer that the caller of `get_intra_edges` has.
OWN = [
    Edit("the type of a count", "src/library.rs", "eob: usize,", "eob: u16,"),
    Edit("a buffer for sides", "src/library.rs", "pub fn get_intra_edges<T: Pixel>(\n  dst:",
         "pub fn get_intra_edges<T: Pixel>(\n  _buffer: &mut crate::util::Aligned<[std::mem::MaybeUninit<T>; 1]>, dst:"),
]


def moved(at, vector):
    """The block that rav1e's two functions of motion read."""
    return f"crate::library::Moved {{ at: {at}, width, height, vector: {vector}, filter: mode }}"


def of_library(what, module, name):
    """The edits by which the function of this name is neither rav1e's in Rust nor that of its assembler, but the library's."""
    new = f"    pub use crate::library::{name};\n" if name else ""
    owns = "self::rust", "crate::asm::x86::" + module.replace("/", "::")
    return [Edit(what, f"src/{module}.rs", f"    pub use {own}::*;\n", new) for own in owns]


def edits(crate):
    """The edits; `crate` is the folder of the library's crate for Rust."""
    return [
        Edit("the library's crate", "Cargo.toml", "[dependencies.arrayvec]",
             f'[dependencies.tilgwaren]\npath = "{crate}"\n\n[dependencies.arrayvec]'),
        Edit("the module", "src/lib.rs", "mod predict;\n", "mod predict;\nmod library;\n"),
        Edit("a frame of tiles begins", ENCODER, "  let ti = &fi.sequence.tiling;\n",
             "  let ti = &fi.sequence.tiling;\n  crate::library::begin(ti.tile_count());\n"),
        *of_library("inverse transforms", "transform/inverse", "inverse_transform_add"),
        *of_library("the average", "mc", "mc_avg"),
        *of_library("predictors", "predict", ""),
        Cut("a block from one reference", PREDICT,
            "      let (row_frac, col_frac, src) =\n        PredictionMode::get_mv_params(&rec.frame.planes[p]", "    }\n  }\n",
            f"      crate::library::put(rec, p, dst, {moved('frame_po', 'mv')});\n"),
        Cut("a block from two", PREDICT, "        let (row_frac, col_frac, src) = PredictionMode::get_mv_params(", "      }\n    }\n    mc_avg(",
            "        let values = buffer.get_buffer_mut(i);\n"
            f"        crate::library::prepare(rec, p, values, {moved('frame_po', 'mvs[i]')});\n"),
        Edit("references keep their planes tested", ENCODER, "  pub frame: Arc<Frame<T>>,\n",
             "  pub frame: Arc<Frame<T>>,\n  pub tested: crate::library::TestedFrame<T>,\n"),
        Edit("a coded frame is a reference", ENCODER, "    frame: fs.rec.clone(),\n",
             "    frame: fs.rec.clone(),\n"
             "    tested: crate::library::TestedFrame::new(&fs.rec, fi.sequence.bit_depth),\n"),
        Edit("a frame that is looked ahead at is a reference", INTERNAL, "frame: fs.input.clone(),\n",
             "frame: fs.input.clone(),\n"
             "tested: crate::library::TestedFrame::new(&fs.input, fi.sequence.bit_depth),\n", 2),
        Cut("prediction from prepared sides", PREDICT, "    assert!(self.is_intra());\n    let &Rect { x: frame_x",
            "  }\n\n  #[inline]\n  pub fn is_intra(self)",
            "    crate::library::predict_from_edge(\n      self, dst, tx_size, ac, intra_param, ief_params, edge_buf,\n    );\n"),
        Edit("sides that are prepared", PREDICT,
             {"0.5.1": "edge_buf: &Aligned<[T; 4 * MAX_TX_SIZE + 1]>, cpu:", "0.8.1": "edge_buf: &IntraEdge<T>,\n    cpu:"},
             "edge_buf: &crate::library::Edge, cpu:"),
        Edit("a block that is looked ahead at lies in a tile of its own", LOOKAHEAD, "        &plane.as_region(),\n        TileBlockOffset(",
             "        &plane_org,\n        TileBlockOffset("),
        Edit("it begins with that tile", LOOKAHEAD, "          x: (x * IMPORTANCE_BLOCK_SIZE) as isize,\n"
             "          y: (y * IMPORTANCE_BLOCK_SIZE) as isize,\n        },\n        TxSize::TX_8X8,",
             "          x: 0,\n          y: 0,\n        },\n        TxSize::TX_8X8,"),
        Cut("intra edges", "src/partition.rs", "pub fn get_intra_edges<", "pub fn has_tr(",
            "pub use crate::library::get_intra_edges;\n\n"),
        Cut("edge and prediction in one", ENCODER,
            {"0.5.1": "    let bit_depth = fi.sequence.bit_depth;\n    let edge_buf = get_intra_edges(",
             "0.8.1": "    let bit_depth = fi.sequence.bit_depth;\n    let mut edge_buf = Aligned::uninit_array();\n"},
            "  }\n\n  if skip {\n",
            "    let transform = crate::library::Transform {\n      cell: tile_partition_bo,\n      unit: (bx, by),\n"
            "      block: bsize,\n      at: po,\n      size: tx_size,\n      depth: fi.sequence.bit_depth,\n"
            "      edge_filter: fi.sequence.enable_intra_edge_filter,\n    };\n"
            "    crate::library::predict(rec, transform, mode, pred_intra_param, ief_params, ac);\n"),
        Cut("luma for chroma", {"0.5.1": ENCODER, "0.8.1": PREDICT}, "  let frame_clipped_bw: usize =\n",
            {"0.5.1": "}\n\npub fn write_tx_blocks<", "0.8.1": "}\n\npub(crate) mod rust {"},
            {version: first + LUMA + last for version, first, last in (
                ("0.5.1", "", ""), ("0.8.1", "  let ac = init_slice_repeat_mut(ac, 0);\n", "  ac\n"))}),
    ]


def apply(copy, crate):
    """Edits the recorder's source in the folder `copy`; ends the program where an edit doesn't apply as often as it must."""
    shutil.copy(os.path.join(HERE, MODULE), os.path.join(copy, "src", MODULE))
    apply_all(copy, [*edits(os.path.abspath(crate)), *(OWN if version_of(copy) == "0.8.1" else [])])
