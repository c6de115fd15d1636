"""The edits that turn a copy of rav1e 0.5.1 or 0.8.1 into the recorder.

An edit is a file, an anchor in it, a replacement of the anchor, and how often the anchor must occur there.  Anchors are short;
replacements are this project's own.  An edit can differ by version.  An edit with `within` looks only between the one place
of its first part and the next place of its second.
"""
import copy
import os
import re
import shutil
import sys

HERE = os.path.dirname(os.path.abspath(__file__))
VERSIONS = ("0.5.1", "0.8.1")
MODULES = ("recorder", "drawing", "drawn_levels", "shared")

ENCODER = "src/encoder.rs"
PARTITION = "src/partition.rs"
RDO = "src/rdo.rs"
INVERSE = "src/transform/inverse.rs"
POST = ("pub fn encode_block_post_cdef<", "pub fn write_tx_blocks<")
BLOCK = ("pub fn encode_tx_block<", "pub fn motion_compensate<")


class Edit:
    """One edit; `what` says what it is for, in the message where it doesn't apply."""

    def __init__(self, what, file, old, new, count=1, within=None):
        self.what, self.file, self.old, self.new, self.count, self.within = what, file, old, new, count, within

    def of(self, version):
        """The edit as it is for one version."""
        one = copy.copy(self)
        one.version = version
        for name, value in vars(self).items():
            if isinstance(value, dict):
                setattr(one, name, value[version])
        return one

    def apply(self, text):
        first, last = 0, len(text)
        if self.within:
            self.expect(text.count(self.within[0]), 1, self.within[0])
            first = text.index(self.within[0])
            last = text.index(self.within[1], first)
        part = text[first:last]
        self.expect(part.count(self.old), self.count, self.old)
        return text[:first] + part.replace(self.old, self.new) + text[last:]

    def expect(self, found, wanted, old):
        if found != wanted:
            sys.exit(f"this isn't rav1e {self.version}: {self.what}: {self.file} has {old!r} {found} times, not {wanted}")


class Pattern(Edit):
    """An edit of what a pattern matches."""

    def apply(self, text):
        text, found = re.subn(self.old, self.new, text)
        self.expect(found, self.count, self.old)
        return text


# A present compiler has a method `ilog` of its own: the crate's is named in full.
ILOG = [Pattern("ilog", file, pattern + r"\.ilog\(\)", r"crate::util::ILog::ilog(\1)", count) for file, pattern, count in (
    ("src/deblock.rs", r"([\w.\[\]]+)", 2),
    ("src/transform/mod.rs", r"(col|row)", 2),
    ("src/transform/inverse.rs", r"(width|height)", 2),
    ("src/me.rs", r"(d\.abs\(\))", 1),
    (ENCODER, r"(max_len)", 1),
    ("src/ec.rs", r"(\br)", 4),
    ("src/lrf.rs", r"(\w+)", 2),
    ("src/rate.rs", r"(\bw)", 1),
)]

TESTS = Pattern("what only the tests need", "Cargo.toml", r"(?m)^\[(?:target\..*\.)?dev-dependencies[^\n]*\n(?:(?!\[)[^\n]*\n)*", "",
                {"0.5.1": 6, "0.8.1": 7})

# Crates of features of 0.8.1 that the recorder is built without, so that they needn't be there.
LESS = [
    Pattern("crates of other features", "Cargo.toml", r"(?m)^\[(?:target\..*\.)?dependencies\."
            r"(?:aom-sys|dav1d-sys|serde|serde-big-array|toml|signal-hook)\]\n(?:(?!\[)[^\n]*\n)*", "", 6),
    Pattern("other features", "Cargo.toml", r"(?m)^(?:decode_test|decode_test_dav1d|signal_support) = .*\n", "", 3),
    Pattern("the feature of settings as text", "Cargo.toml", r"(?m)^serialize = \[\n(?:    .*\n)*\]\n", ""),
    Edit("features by default", "Cargo.toml", '    "threading",\n    "signal_support",\n', '    "threading",\n'),
]

BUILD = [
    Edit("a profile that builds soon", "Cargo.toml",
         {version: f'lto = "thin"\ndebug = {debug}\nincremental = true' for version, debug in zip(VERSIONS, ("true", "2"))},
         'lto = false\ndebug = false\nincremental = true\ncodegen-units = 16'),
    Edit("the modules", "src/lib.rs", "mod predict;\n", "mod predict;\n" + "".join(f"mod {m};\n" for m in MODULES)),
]

# What the stream says of a frame.
SETTINGS = [
    Edit("CDEF off", ENCODER, "enable_cdef: config", "enable_cdef: crate::recorder::filters_on() && config"),
    Edit("restoration off", ENCODER, "enable_restoration: config", "enable_restoration: crate::recorder::filters_on() && config"),
    Edit("deblocking off", "src/deblock.rs", ") -> [u8; 4] {\n  if fi.config",
         ") -> [u8; 4] {\n  if !crate::recorder::filters_on() {\n    return [0; 4];\n  }\n  if fi.config"),
    Edit("the intra edge filter", ENCODER, "enable_intra_edge_filter: true,",
         "enable_intra_edge_filter: crate::recorder::edge_filter(),"),
    Edit("the interpolation filter", ENCODER, "    fi.pyramid_level = inter_cfg.get_level(fi.idx_in_group_output);\n",
         "    fi.default_filter = crate::recorder::filter_of(output_frameno_in_gop as usize);\n"
         "    fi.pyramid_level = inter_cfg.get_level(fi.idx_in_group_output);\n"),
    Edit("the short filter", "src/mc.rs", "(mode as usize).min(1) + 4", "crate::recorder::short_filter(mode as usize) + 4"),
    Edit("the identity of 4", INVERSE, "round_shift(SQRT2 * *inp, 12)", "crate::recorder::scaled(SQRT2, *inp)"),
    Edit("the identity of 16", INVERSE, "round_shift(SQRT2 * 2 * *inp, 12)", "crate::recorder::scaled(SQRT2 * 2, *inp)"),
]

# What a plan can't say is left out of the search, and what rav1e doesn't try comes in.
SEARCH = [
    Edit("no leaf with a side of 4 has references in versions 1 and 2", RDO,
         ") -> PartitionParameters {\n  let mut best = PartitionParameters::default();\n\n  // we can never",
         ") -> PartitionParameters {\n  let mut best = PartitionParameters::default();\n"
         "  if !crate::recorder::admits_references(bsize) {\n    return best;\n  }\n\n  // we can never"),
    Edit("chroma that leaves share", ENCODER, "    if p > 0 && bsize < BlockSize::BLOCK_8X8 {\n",
         "    let own = crate::shared::Motion { mode: luma_mode, references: ref_frames, vectors: mvs };\n"
         "    if p > 0\n      && crate::shared::predict(\n"
         "        fi, tile_rect, p, po, rec, &cw.bc, own, bsize, tile_bo, compound_buffer,\n      )\n    {\n      continue;\n    }\n"
         "    if false {\n"),
    Edit("types of leaves with references", RDO, "      && !is_inter\n      && !skip;\n",
         "      && (!is_inter || crate::recorder::inter_types())\n      && !skip;\n"),
    Edit("all sixteen types", "src/transform/mod.rs", "  //TxType::V_FLIPADST,",
         "".join(f"  TxType::{kind},\n" for kind in
                 "FLIPADST_DCT DCT_FLIPADST FLIPADST_FLIPADST ADST_FLIPADST FLIPADST_ADST V_ADST H_ADST V_FLIPADST H_FLIPADST".split())
         + "  //TxType::V_FLIPADST,"),
    Edit("leaves of 4x4 beside others in 4:2:2 and 4:4:4", ENCODER, "    if fi.frame_type.has_inter() &&\n",
         "    if false && fi.frame_type.has_inter() &&\n", 2),
    Edit("nodes of four leaves", ENCODER, "let mut partition_types = ArrayVec::<PartitionType, 3>::new();\n",
         "let mut partition_types = ArrayVec::<PartitionType, 5>::new();\n"
         "    if crate::recorder::quarters()\n      && !must_split\n      && !(is_straddle_x || is_straddle_y)\n"
         "      && bsize >= BlockSize::BLOCK_16X16\n    {\n"
         "      partition_types.push(PartitionType::PARTITION_HORZ_4);\n"
         "      if fi.sequence.chroma_sampling != ChromaSampling::Cs422 {\n"
         "        partition_types.push(PartitionType::PARTITION_VERT_4);\n      }\n    }\n",
         within=("fn encode_partition_bottomup<", "fn encode_partition_topdown<")),
    Edit("the places of four leaves", ENCODER, "partition);\n\n      early_exit",
         "partition);\n"
         "      let partitions: ArrayVec<TileBlockOffset, 4> = match partition {\n"
         "        PARTITION_HORZ_4 => (0..4).map(|i| tile_bo.with_offset(0, (i * hbsh) as isize)).collect(),\n"
         "        PARTITION_VERT_4 => (0..4).map(|i| tile_bo.with_offset((i * hbsw) as isize, 0)).collect(),\n"
         "        _ => partitions,\n      };\n\n      early_exit"),
]

# Where rav1e writes what isn't AV1, in shapes, references and modes that it doesn't choose itself.
BITS = [
    Edit("chroma of 16x4 and 4x16", ENCODER, "  if bw_uv == 0 || bh_uv == 0 {\n    bw_uv = 1;\n    bh_uv = 1;\n  }\n",
         "  bw_uv = bw_uv.max(1);\n  bh_uv = bh_uv.max(1);\n", 2),
    Edit("an angle step goes by the number of the size", ENCODER, "is_directional() && bsize >= BlockSize::BLOCK_8X8 {",
         "is_directional() && bsize as usize >= BlockSize::BLOCK_8X8 as usize {", 2),
    Edit("the class of a count goes by the coded size", "src/context/block_unit.rs",
         "let eob_multi_size: usize = tx_size.area_log2() - 4;",
         "let eob_multi_size: usize = av1_get_coded_tx_size(tx_size).area_log2() - 4;"),
    Edit("what lies above right of four leaves in a row", PARTITION,
         "  if (target_n4_w < target_n4_h) && (bo.0.x & target_n4_w) == 0 {",
         "  let last =\n    if 4 * target_n4_w == target_n4_h { 3 } else { 1 } * target_n4_w;\n"
         "  if (target_n4_w < target_n4_h) && (bo.0.x & last) != last {"),
    Edit("what lies above right of four leaves in a column", PARTITION,
         "  if (target_n4_w > target_n4_h) && (bo.0.y & target_n4_h) != 0 {",
         "  let first =\n    if target_n4_w == 4 * target_n4_h { 3 } else { 1 } * target_n4_h;\n"
         "  if (target_n4_w > target_n4_h) && (bo.0.y & first) != 0 {"),
]

DRAWING = [
    Edit("a superblock is drawn", ENCODER, "      // Encode SuperBlock\n      if ",
         "      if crate::drawing::on() {\n"
         "        crate::drawing::node(\n          fi,\n          ts,\n          &mut cw,\n"
         "          &mut [&mut sbs_qe.w_pre_cdef, &mut sbs_qe.w_post_cdef],\n"
         "          BlockSize::BLOCK_64X64,\n          tile_bo,\n        );\n"
         "      } else if "),
    Edit("levels are drawn", ENCODER, "tx_size, tx_type);\n\n  let has_coeff",
         {version: "tx_size, tx_type);\n"
          "  let eob = crate::drawn_levels::draw(\n    p, tx_size, tx_type, qidx, fi.sequence.bit_depth,\n"
          f"    (fi.dc_delta_q[p], fi.ac_delta_q[p]), qcoeffs, eob as usize,\n  ) as {count};\n\n  let has_coeff"
          for version, count in zip(VERSIONS, ("usize", "u16"))}, within=BLOCK),
    Edit("sizes of transforms in key frames", ENCODER, "let tx_mode_select = config",
         "let tx_mode_select = crate::drawing::on() || config"),
    Edit("types of transforms", ENCODER, "let use_reduced_tx_set = config",
         "let use_reduced_tx_set = !crate::drawing::on() && config"),
    Edit("settings of frames with references", ENCODER, "    fi.set_ref_frame_sign_bias();\n",
         "    crate::drawing::frame(&mut fi);\n    fi.set_ref_frame_sign_bias();\n"),
    Edit("two references", ENCODER, "fi.reference_mode = if inter_cfg", "fi.reference_mode = if crate::drawing::on() || inter_cfg"),
    Edit("all references count for the mode of skipped blocks", ENCODER, "inter_cfg.allowed_ref_frames().iter().map(",
         "crate::drawing::references(inter_cfg).iter().map(", 2),
    Edit("one near and one new vector", ENCODER, "      if luma_mode.has_nearmv() {\n",
         "      if crate::drawing::write_near_and_new(\n        cw, w, luma_mode, mvs, mv_stack, mv_precision,\n      ) {\n"
         "      } else if luma_mode.has_nearmv() {\n"),
]

RECORDING = [
    Edit("a leaf begins", ENCODER, "  if is_inter {\n    motion_compensate(\n",
         "  crate::recorder::begin(\n"
         "    ts.tile_rect(), tile_bo, bsize, luma_mode, chroma_mode, angle_delta, cfl, ref_frames,\n"
         "    mvs, tx_size, tx_type, fi.sequence.chroma_sampling, need_recon_pixel,\n  );\n"
         "  let answer = if is_inter {\n    motion_compensate(\n", within=POST),
    Edit("a leaf ends", ENCODER, "    )\n  }\n}\n", "    )\n  };\n  crate::recorder::end();\n  answer\n}\n", within=POST),
    Edit("a block that is skipped", ENCODER, "  if skip {\n",
         "  if skip {\n    crate::recorder::block::<i32>(p, po.x, po.y, tx_size, tx_type, &[]);\n", within=BLOCK),
    *(Edit("a block's coefficients", ENCODER, {"0.5.1": one, "0.8.1": other},
           {version: "  crate::recorder::block(p, po.x, po.y, tx_size, tx_type, rcoeffs);\n" + first
            for version, first in zip(VERSIONS, (one, other))}, within=BLOCK)
      for one, other in [("  if !fi.use_tx_domain_distortion || need_recon_pixel {\n", "  if eob == 0 {\n")]),
    Edit("a frame begins", ENCODER, "  let mut blocks = FrameBlocks::new(fi.w_in_b, fi.h_in_b);\n",
         "  crate::recorder::start(fi, fs);\n  let mut blocks = FrameBlocks::new(fi.w_in_b, fi.h_in_b);\n"),
    Edit("a frame is coded", ENCODER, "  /* Frame deblocking operates", "  crate::recorder::finish(fi, fs);\n\n  /* Frame deblocking operates"),
    Edit("a frame is filtered", ENCODER, "  let (idx_max, max_len) =", "  crate::recorder::filtered(fi, fs);\n\n  let (idx_max, max_len) ="),
    Edit("a frame is coded for a trial", "src/api/internal.rs", "let mut trial_fs = frame_data.fs.clone();\n",
         "let mut trial_fs = frame_data.fs.clone();\n      crate::recorder::trial();\n"),
    Edit("a frame is shown again", ENCODER, "  let obu_extension = 0;\n",
         "  let obu_extension = 0;\n  crate::recorder::shown_again(fi.frame_to_show_map_idx as usize);\n",
         within=("pub fn encode_show_existing_frame<", "pub fn encode_frame<")),
]

EDITS = [*BUILD, *SETTINGS, *SEARCH, *BITS, *DRAWING, *RECORDING]
# An encoder that decides and writes as it does by itself, and is recorded.
AS_IT_IS = [*BUILD, *RECORDING]

# What this project's own modules call otherwise in 0.8.1.
MODULE_EDITS = [
    Pattern("quantizers that aren't 0", "src/drawn_levels.rs", r"(_q\(qidx, deltas\.\d, depth\)) as i64", r"\1.get() as i64", 2),
    Edit("a size that may not be", "src/drawing.rs", "bsize.subsize(partition);", "bsize.subsize(partition).unwrap();"),
    Edit("counts of blocks", "src/drawing.rs", "RDOType::PixelDistRealRate, true, true,", "RDOType::PixelDistRealRate, true, None,"),
]


def version_of(crate):
    """The version of the rav1e in the folder `crate`, which must be one that the edits are for."""
    with open(os.path.join(crate, "Cargo.toml"), encoding="utf-8") as file:
        version = re.search(r'(?m)^name = "rav1e"\nversion = "(.*)"$', file.read())
    if not version or version[1] not in VERSIONS:
        sys.exit(f"{crate}: not rav1e {' or '.join(VERSIONS)}")
    return version[1]


def apply(crate, edits):
    """Makes a copy in the folder `crate` a recorder by these edits; ends the program if one doesn't apply as often as it must."""
    for module in MODULES:
        shutil.copy(os.path.join(HERE, module + ".rs"), os.path.join(crate, "src", module + ".rs"))
    apply_all(crate, [TESTS, *(ILOG if version_of(crate) == "0.5.1" else LESS + MODULE_EDITS), *edits])


def apply_all(crate, edits):
    """Applies edits in turn to the source in the folder `crate`."""
    version, texts = version_of(crate), {}
    for edit in (edit.of(version) for edit in edits):
        if edit.file not in texts:
            with open(os.path.join(crate, edit.file), encoding="utf-8") as file:
                texts[edit.file] = file.read()
        texts[edit.file] = edit.apply(texts[edit.file])
    for name, changed in texts.items():
        with open(os.path.join(crate, name), "w", encoding="utf-8") as file:
            file.write(changed)
