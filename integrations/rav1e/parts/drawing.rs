//! Draws an encoder's decisions from a seed, in place of its search: how a superblock is cut, and what each leaf is.
//!
//! `edits.py` puts this file into a copy of rav1e.  With RECORD_SEED set, `node` codes each superblock by the encoder's
//! own writers and reconstruction, and `drawn_levels.rs` replaces what quantization left.  What is drawn is what AV1 admits and
//! a plan can say; the comments name the rules.

use crate::api::InterConfig;
use crate::context::*;
use crate::ec::Writer;
use crate::drawn_levels;
use crate::encoder::{encode_block_post_cdef, encode_block_pre_cdef, FrameInvariants};
use crate::mc::MotionVector;
use crate::partition::PartitionType::*;
use crate::partition::RefType::*;
use crate::partition::{BlockSize, MvSubpelPrecision, PartitionType, RefType, ALL_INTER_REFS};
use crate::predict::PredictionMode::*;
use crate::predict::{AngleDelta, PredictionMode};
use crate::rdo::RDOType;
use crate::recorder::{admits_references, earlier_versions, setting};
use crate::tiling::TileStateMut;
use crate::transform::{TxSize, TxType};
use crate::util::Pixel;

use arrayvec::ArrayVec;
use std::sync::{Mutex, OnceLock};

const INTRA_MODES: [PredictionMode; 13] = [
  DC_PRED, V_PRED, H_PRED, D45_PRED, D135_PRED, D113_PRED, D157_PRED, D203_PRED, D67_PRED, SMOOTH_PRED, SMOOTH_V_PRED,
  SMOOTH_H_PRED, PAETH_PRED,
];
const TYPES: [TxType; 16] = [
  TxType::DCT_DCT, TxType::ADST_DCT, TxType::DCT_ADST, TxType::ADST_ADST, TxType::FLIPADST_DCT, TxType::DCT_FLIPADST,
  TxType::FLIPADST_FLIPADST, TxType::ADST_FLIPADST, TxType::FLIPADST_ADST, TxType::IDTX, TxType::V_DCT, TxType::H_DCT,
  TxType::V_ADST, TxType::H_ADST, TxType::V_FLIPADST, TxType::H_FLIPADST,
];
const FORWARD: [RefType; 4] = [LAST_FRAME, LAST2_FRAME, LAST3_FRAME, GOLDEN_FRAME];
const BACKWARD: [RefType; 3] = [BWDREF_FRAME, ALTREF2_FRAME, ALTREF_FRAME];

/// Whether decisions are drawn.
pub fn on() -> bool {
  static ON: OnceLock<bool> = OnceLock::new();
  *ON.get_or_init(|| setting("RECORD_SEED").is_some())
}

/// A number below `n`, by splitmix64 from the seed.
pub fn below(n: usize) -> usize {
  static STATE: Mutex<Option<u64>> = Mutex::new(None);
  let mut state = STATE.lock().unwrap();
  let seed = || setting("RECORD_SEED").and_then(|word| word.parse().ok()).expect("a seed is a number");
  let next = state.unwrap_or_else(seed).wrapping_add(0x9e37_79b9_7f4a_7c15);
  *state = Some(next);
  let mixed = (next ^ next >> 30).wrapping_mul(0xbf58_476d_1ce4_e5b9);
  let mixed = (mixed ^ mixed >> 27).wrapping_mul(0x94d0_49bb_1331_11eb);
  ((mixed ^ mixed >> 31) % n as u64) as usize
}

pub fn one_in(n: usize) -> bool {
  below(n) == 0
}

pub fn one_of<T: Copy>(from: &[T]) -> T {
  from[below(from.len())]
}

/// The settings of a frame with references: slots, precision of vectors, sizes of transforms.
pub fn frame<T: Pixel>(fi: &mut FrameInvariants<T>) {
  if on() {
    fi.allow_high_precision_mv = one_in(2);
    fi.enable_inter_txfm_split = true;
    fi.tx_mode_select = true;
    for slot in fi.ref_frames.iter_mut() {
      *slot = below(8) as u8;
    }
  }
}

/// The references that count for whether a frame may have skipped blocks of two: AV1 counts all seven.
pub fn references(inter_cfg: &InterConfig) -> &[RefType] {
  if on() {
    &ALL_INTER_REFS
  } else {
    inter_cfg.allowed_ref_frames()
  }
}

/// Codes the node of side `bsize` at `at`.
pub fn node<T: Pixel, W: Writer>(
  fi: &FrameInvariants<T>, ts: &mut TileStateMut<'_, T>, cw: &mut ContextWriter, writers: &mut [&mut W; 2],
  bsize: BlockSize, at: TileBlockOffset,
) {
  if at.0.x >= ts.mi_width || at.0.y >= ts.mi_height {
    return;
  }
  let partition = draw_partition(fi, ts, bsize, at);
  let size = bsize.subsize(partition);
  cw.write_partition(writers[cw.bc.cdef_coded as usize], at, partition, bsize);
  for y in (0..bsize.height_mi()).step_by(size.height_mi()) {
    for x in (0..bsize.width_mi()).step_by(size.width_mi()) {
      let part = at.with_offset(x as isize, y as isize);
      if part.0.x >= ts.mi_width || part.0.y >= ts.mi_height {
        continue;
      }
      if partition == PARTITION_SPLIT && bsize > BlockSize::BLOCK_8X8 {
        node(fi, ts, cw, writers, size, part);
      } else {
        leaf(fi, ts, cw, writers, size, part);
      }
    }
  }
  if bsize == BlockSize::BLOCK_8X8 || partition != PARTITION_SPLIT {
    cw.bc.update_partition_context(at, size, bsize);
  }
}

/// How a node is cut.  In 4:2:2 no leaf is taller than wide.  Where half of the node lies past an edge AV1 leaves one way or
/// two.  A plan has four leaves in a row or a column only where the node lies in the frame whole.
fn draw_partition<T: Pixel>(
  fi: &FrameInvariants<T>, ts: &TileStateMut<'_, T>, bsize: BlockSize, at: TileBlockOffset,
) -> PartitionType {
  let half = bsize.width_mi() / 2;
  let has_cols = at.0.x + half < ts.mi_width;
  let has_rows = at.0.y + half < ts.mi_height;
  let whole = at.0.x + 2 * half <= ts.mi_width && at.0.y + 2 * half <= ts.mi_height;
  let tall = fi.sequence.chroma_sampling != crate::api::ChromaSampling::Cs422;
  let mut ways = ArrayVec::<PartitionType, 8>::new();
  ways.push(PARTITION_SPLIT);
  if has_cols && has_rows {
    ways.push(PARTITION_NONE);
  }
  if has_cols {
    ways.push(PARTITION_HORZ);
  }
  if has_rows && tall {
    ways.push(PARTITION_VERT);
  }
  if whole && bsize >= BlockSize::BLOCK_16X16 {
    ways.push(PARTITION_HORZ_4);
    if tall {
      ways.push(PARTITION_VERT_4);
    }
  }
  // A large node is cut in four more often, so that a frame isn't a few large leaves; and a small one stays whole more often
  // where leaves can have references.
  if bsize >= BlockSize::BLOCK_32X32 && one_in(2) {
    PARTITION_SPLIT
  } else if bsize == BlockSize::BLOCK_8X8 && fi.frame_type.has_inter() && one_in(2) {
    PARTITION_NONE
  } else {
    one_of(&ways)
  }
}

/// What a leaf is predicted from.
struct Prediction {
  luma: PredictionMode,
  chroma: PredictionMode,
  steps: AngleDelta,
  cfl: CFLParams,
  references: [RefType; 2],
  vectors: [MotionVector; 2],
  context: usize,
  stack: ArrayVec<CandidateMV, 9>,
}

fn leaf<T: Pixel, W: Writer>(
  fi: &FrameInvariants<T>, ts: &mut TileStateMut<'_, T>, cw: &mut ContextWriter, writers: &mut [&mut W; 2],
  bsize: BlockSize, at: TileBlockOffset,
) {
  let inter = may_have_references(fi, bsize) && !one_in(3);
  let p = if inter { draw_inter(fi, cw, bsize, at) } else { draw_intra(fi, ts, bsize, at) };
  let skip = one_in(6);
  let (size, kind) = draw_transform(fi, bsize, inter, skip);
  // A chroma block takes its type from the luma block over its first sample, and rav1e from the leaf.
  let split = size != max_txsize_rect_lookup[bsize as usize];
  drawn_levels::each_has_some(inter && split && kind != TxType::DCT_DCT);
  cw.bc.blocks.set_segmentation_idx(at, bsize, 0);
  let before = cw.bc.cdef_coded as usize;
  let coded = encode_block_pre_cdef(&fi.sequence, ts, cw, writers[before], bsize, at, skip);
  encode_block_post_cdef(
    fi, ts, cw, writers[coded as usize], p.luma, p.chroma, p.steps, p.references, p.vectors, bsize, at, skip, p.cfl, size,
    kind, p.context, &p.stack, RDOType::PixelDistRealRate, true, true,
  );
}

/// Plans of versions 1 and 2 have no references on leaves with a side of 4.  With them the sharp filter is kept from chroma
/// sides up to 4, where rav1e departs from AV1, unless RECORD_SHORT_SHARP is set.
fn may_have_references<T: Pixel>(fi: &FrameInvariants<T>, bsize: BlockSize) -> bool {
  let (w, h) = (bsize.width(), bsize.height());
  let (xdec, ydec) = fi.sequence.chroma_sampling.get_decimation().unwrap_or((0, 0));
  let sharp = fi.default_filter == crate::mc::FilterMode::SHARP;
  let kept_off = sharp && earlier_versions() && setting("RECORD_SHORT_SHARP").is_none();
  fi.frame_type.has_inter() && admits_references(bsize) && !(kept_off && (w >> xdec <= 4 || h >> ydec <= 4))
}

/// An angle step, where AV1 codes one: on directions, from 8x8 on in its order of sizes (4x16 and 16x4 stand behind).
fn draw_step(mode: PredictionMode, bsize: BlockSize) -> i8 {
  if mode.is_directional() && bsize as usize >= BlockSize::BLOCK_8X8 as usize {
    below(7) as i8 - 3
  } else {
    0
  }
}

fn draw_intra<T: Pixel>(
  fi: &FrameInvariants<T>, ts: &TileStateMut<'_, T>, bsize: BlockSize, at: TileBlockOffset,
) -> Prediction {
  let luma = one_of(&INTRA_MODES);
  let cfg = ts.input.planes[1].cfg.clone();
  let carries = has_chroma(at, bsize, cfg.xdec, cfg.ydec, fi.sequence.chroma_sampling);
  let mut chroma = DC_PRED;
  let mut cfl = CFLParams::default();
  if carries {
    chroma = one_of(&INTRA_MODES);
    if bsize.width() <= 32 && bsize.height() <= 32 && one_in(4) {
      chroma = UV_CFL_PRED;
      let (u, v) = (below(33) as i16 - 16, below(33) as i16 - 16);
      // AV1 has no way to write two weights of 0.
      cfl = CFLParams::from_alpha(if u == 0 && v == 0 { 1 } else { u }, v);
    }
  }
  Prediction {
    luma,
    chroma,
    steps: AngleDelta { y: draw_step(luma, bsize), uv: draw_step(chroma, bsize) },
    cfl,
    references: [INTRA_FRAME, NONE_FRAME],
    vectors: [MotionVector::default(); 2],
    context: 0,
    stack: ArrayVec::new(),
  }
}

fn draw_inter<T: Pixel>(
  fi: &FrameInvariants<T>, cw: &mut ContextWriter, bsize: BlockSize, at: TileBlockOffset,
) -> Prediction {
  // AV1 codes two references from 8x8 on.
  let two = bsize.width() >= 8 && bsize.height() >= 8 && one_in(3);
  // The first of each list comes more often, so that leaves have neighbours of the same reference, and thus candidates.
  let pick = |from: &[RefType]| if one_in(2) { from[0] } else { one_of(from) };
  let references = match (two, one_in(2)) {
    (true, _) => [pick(&FORWARD), pick(&BACKWARD)],
    (_, true) => [pick(&FORWARD), NONE_FRAME],
    _ => [pick(&BACKWARD), NONE_FRAME],
  };
  let mut stack = ArrayVec::new();
  let context = cw.find_mvrefs(at, references, &mut stack, bsize, fi, two);
  let mode = if two { draw_mode_of_two(stack.len()) } else { draw_mode_of_one(stack.len()) };
  let mut vectors = [vector_of(mode, 0, &stack, fi), MotionVector::default()];
  if two {
    vectors[1] = vector_of(mode, 1, &stack, fi);
  }
  Prediction {
    luma: mode,
    chroma: mode,
    steps: AngleDelta::default(),
    cfl: CFLParams::default(),
    references,
    vectors,
    context,
    stack,
  }
}

fn draw_mode_of_one(found: usize) -> PredictionMode {
  let near = [NEAR0MV, NEAR1MV, NEAR2MV];
  match below(6) {
    0 => NEARESTMV,
    // The first is always there; the others are where the stack has them.
    1 | 2 => near[below(found.saturating_sub(1).clamp(1, 3))],
    3 => GLOBALMV,
    _ => NEWMV,
  }
}

fn draw_mode_of_two(found: usize) -> PredictionMode {
  let near = below(found.saturating_sub(1).clamp(1, 3));
  match below(9) {
    0 => NEAREST_NEARESTMV,
    1 | 2 => [NEAR_NEAR0MV, NEAR_NEAR1MV, NEAR_NEAR2MV][near],
    3 => NEAREST_NEWMV,
    4 => NEW_NEARESTMV,
    5 => [NEAR_NEW0MV, NEAR_NEW1MV, NEAR_NEW2MV][near],
    6 => [NEW_NEAR0MV, NEW_NEAR1MV, NEW_NEAR2MV][near],
    7 => GLOBAL_GLOBALMV,
    _ => NEW_NEWMV,
  }
}

/// Which candidate of the stack a mode takes, or writes its vectors against.
fn candidate(mode: PredictionMode) -> usize {
  match mode {
    NEAR0MV | NEAR_NEAR0MV | NEAR_NEW0MV | NEW_NEAR0MV => 1,
    NEAR1MV | NEAR_NEAR1MV | NEAR_NEW1MV | NEW_NEAR1MV => 2,
    NEAR2MV | NEAR_NEAR2MV | NEAR_NEW2MV | NEW_NEAR2MV => 3,
    _ => 0,
  }
}

/// Whether a mode writes the vector of reference `i`.
fn is_new(mode: PredictionMode, i: usize) -> bool {
  match mode {
    NEWMV | NEW_NEWMV => true,
    NEW_NEARESTMV | NEW_NEAR0MV | NEW_NEAR1MV | NEW_NEAR2MV => i == 0,
    NEAREST_NEWMV | NEAR_NEW0MV | NEAR_NEW1MV | NEAR_NEW2MV => i == 1,
    _ => false,
  }
}

fn predicted(mode: PredictionMode, i: usize, stack: &[CandidateMV]) -> MotionVector {
  let found = stack.get(candidate(mode));
  found.map_or(MotionVector::default(), |c| if i == 0 { c.this_mv } else { c.comp_mv })
}

fn vector_of<T: Pixel>(
  mode: PredictionMode, i: usize, stack: &[CandidateMV], fi: &FrameInvariants<T>,
) -> MotionVector {
  if mode == GLOBALMV || mode == GLOBAL_GLOBALMV {
    return MotionVector::default();
  }
  let near = predicted(mode, i, stack);
  if is_new(mode, i) {
    let reach = one_of(&[16, 64, 64, 512, 512, 4096, 16000]);
    MotionVector { row: draw_part(near.row, reach, fi), col: draw_part(near.col, reach, fi) }
  } else {
    near
  }
}

/// A row or column of a vector within `reach` of 0.  It and its difference from what is predicted stay below 2^14, and it is
/// even unless the frame's vectors go by eighths.
fn draw_part<T: Pixel>(near: i16, reach: usize, fi: &FrameInvariants<T>) -> i16 {
  let drawn = below(2 * reach + 1) as i32 - reach as i32;
  let drawn = if fi.allow_high_precision_mv { drawn } else { drawn & !1 };
  drawn.clamp(near as i32 - 16_382, near as i32 + 16_382) as i16
}

/// A size and a type of luma transforms: an intra leaf's are cut up to twice, others once.
fn draw_transform<T: Pixel>(
  fi: &FrameInvariants<T>, bsize: BlockSize, inter: bool, skip: bool,
) -> (TxSize, TxType) {
  let mut size = max_txsize_rect_lookup[bsize as usize];
  let cuts = match (fi.tx_mode_select, inter) {
    (false, _) => 0,
    (_, true) => if skip { 0 } else { below(2) },
    (_, false) => below(3),
  };
  for _ in 0..cuts {
    size = sub_tx_size_map[size as usize];
  }
  let set = get_tx_set(size, inter, fi.use_reduced_tx_set) as usize;
  if skip || num_tx_set[set] == 1 {
    return (size, TxType::DCT_DCT);
  }
  let admitted: ArrayVec<TxType, 16> = TYPES.iter().copied().filter(|&t| av1_tx_used[set][t as usize] == 1).collect();
  (size, one_of(&admitted))
}

/// Writes what rav1e's own code doesn't of modes with one near and one new vector: which candidate is taken, and the vector.
/// Says whether `mode` is such a mode.
pub fn write_near_and_new<W: Writer>(
  cw: &mut ContextWriter, w: &mut W, mode: PredictionMode, vectors: [MotionVector; 2], stack: &[CandidateMV],
  precision: MvSubpelPrecision,
) -> bool {
  if !(mode.has_nearmv() && mode.has_newmv()) {
    return false;
  }
  let taken = candidate(mode);
  for idx in 1..3 {
    if stack.len() > idx + 1 {
      let far = |i: usize| (stack[i].weight < REF_CAT_LEVEL) as usize;
      cw.write_drl_mode(w, taken > idx, far(idx) + far(idx + 1));
      if taken <= idx {
        break;
      }
    }
  }
  let i = if is_new(mode, 0) { 0 } else { 1 };
  cw.write_mv(w, vectors[i], predicted(mode, i, stack), precision);
  true
}
