//! The samples of valid leaves, by rav1e's functions in the order in which its encoder calls them.

use super::plan::{Chroma, Head, Leaf, Planes, Slots, FROM_LUMA};
use crate::api::{ChromaSampling, EncoderConfig};
use crate::context::{has_chroma, BlockContext, BlockOffset, CDFContext, ContextWriter, FrameBlocks, SuperBlockOffset};
use crate::context::{PlaneSuperBlockOffset, TileBlockOffset};
use crate::encoder::{motion_compensate, FrameInvariants, FrameState, ReferenceFrame, Sequence};
use crate::frame::{Frame, FrameAlloc, FramePad, PlaneOffset};
use crate::mc::{FilterMode, MotionVector};
use crate::partition::{get_intra_edges, BlockSize, RefType, ALL_INTER_REFS};
use crate::predict::{luma_ac, IntraEdgeFilterParameters, IntraParam, PredictionMode};
use crate::tiling::{Area, TileBlocksMut, TileStateMut};
use crate::transform::{inverse_transform_add, TxSize, TxType};
use crate::util::{Aligned, CastFromPrimitive, Pixel};

use std::mem::MaybeUninit;
use std::sync::Arc;

/// The sizes and types of transforms, and the modes, by their numbers in plans.
pub const SIZES: [TxSize; 19] = {
  use TxSize::*;
  [
    TX_4X4, TX_8X8, TX_16X16, TX_32X32, TX_64X64, TX_4X8, TX_8X4, TX_8X16, TX_16X8, TX_16X32, TX_32X16, TX_32X64, TX_64X32,
    TX_4X16, TX_16X4, TX_8X32, TX_32X8, TX_16X64, TX_64X16,
  ]
};
pub const TYPES: [TxType; 17] = {
  use TxType::*;
  [
    DCT_DCT, ADST_DCT, DCT_ADST, ADST_ADST, FLIPADST_DCT, DCT_FLIPADST, FLIPADST_FLIPADST, ADST_FLIPADST, FLIPADST_ADST, IDTX,
    V_DCT, H_DCT, V_ADST, H_ADST, V_FLIPADST, H_FLIPADST, WHT_WHT,
  ]
};
const MODES: [PredictionMode; 34] = {
  use PredictionMode::*;
  [
    DC_PRED, V_PRED, H_PRED, D45_PRED, D135_PRED, D113_PRED, D157_PRED, D203_PRED, D67_PRED, SMOOTH_PRED, SMOOTH_V_PRED,
    SMOOTH_H_PRED, PAETH_PRED, UV_CFL_PRED, NEARESTMV, NEAR0MV, NEAR1MV, NEAR2MV, GLOBALMV, NEWMV, NEAREST_NEARESTMV,
    NEAR_NEAR0MV, NEAR_NEAR1MV, NEAR_NEAR2MV, NEAREST_NEWMV, NEW_NEARESTMV, NEAR_NEW0MV, NEAR_NEW1MV, NEAR_NEW2MV,
    NEW_NEAR0MV, NEW_NEAR1MV, NEW_NEAR2MV, GLOBAL_GLOBALMV, NEW_NEWMV,
  ]
};
const FILTERS: [FilterMode; 4] = [FilterMode::REGULAR, FilterMode::SMOOTH, FilterMode::SHARP, FilterMode::BILINEAR];
const SAMPLINGS: [ChromaSampling; 3] = [ChromaSampling::Cs420, ChromaSampling::Cs422, ChromaSampling::Cs444];

/// Leaves that lie in a tile, at so many columns and rows of the frame's luma, of so many that are coded.
pub struct Tile<'a> {
  pub x: usize,
  pub y: usize,
  pub width: usize,
  pub height: usize,
  pub leaves: &'a [Leaf],
}

/// The planes of a frame with these references, of which each tile's leaves are valid.
pub fn planes(head: &Head, slots: &Slots, tiles: &[Tile]) -> Planes {
  super::as_av1(head.version);
  if head.depth == 8 {
    coded::<u8>(head, slots, tiles)
  } else {
    coded::<u16>(head, slots, tiles)
  }
}

fn coded<T: Pixel>(head: &Head, slots: &Slots, tiles: &[Tile]) -> Planes {
  let fi = invariants::<T>(head, slots);
  let mut fs = FrameState::new(&fi);
  for tile in tiles {
    code_tile(&fi, &mut fs, tile);
  }
  let mut planes = Planes::default();
  for (plane, samples) in planes.iter_mut().enumerate() {
    let (width, height) = head.sides(plane);
    let rows = fs.rec.planes[plane].data_origin().chunks(fs.rec.planes[plane].cfg.stride).take(height);
    samples.extend(rows.flat_map(|row| row[..width].iter().map(|&sample| u16::cast_from(sample))));
  }
  planes
}

/// What rav1e's functions ask of a frame: its settings, and its references with padding.
fn invariants<T: Pixel>(head: &Head, slots: &Slots) -> FrameInvariants<T> {
  let chroma_sampling = SAMPLINGS[head.sampling as usize];
  let (width, height) = (head.width, head.height);
  let config = EncoderConfig { width, height, bit_depth: head.depth, chroma_sampling, ..Default::default() };
  let mut sequence = Sequence::new(&config);
  sequence.enable_intra_edge_filter = head.edge_filter;
  let mut fi = FrameInvariants::new(Arc::new(config), Arc::new(sequence));
  fi.default_filter = FILTERS[head.filter as usize];
  fi.ref_frames = head.slots;
  for slot in 0..8 {
    if let Some(planes) = &slots[slot] {
      let fs = FrameState::new(&fi);
      fi.rec_buffer.frames[slot] = Some(Arc::new(reference(head, planes, fs)));
    }
  }
  fi
}

/// A reference with these samples, all else as in an empty frame.
fn reference<T: Pixel>(head: &Head, planes: &Planes, fs: FrameState<T>) -> ReferenceFrame<T> {
  let mut frame = Frame::new(head.width, head.height, SAMPLINGS[head.sampling as usize]);
  for (plane, samples) in planes.iter().enumerate() {
    let (width, stride) = (head.sides(plane).0, frame.planes[plane].cfg.stride);
    let rows = frame.planes[plane].data_origin_mut().chunks_mut(stride);
    for (row, samples) in rows.zip(samples.chunks(width)) {
      for (sample, &value) in row.iter_mut().zip(samples) {
        *sample = T::cast_from(value);
      }
    }
  }
  frame.pad(head.width, head.height, 3);
  ReferenceFrame {
    order_hint: 0,
    width: head.width as u32,
    height: head.height as u32,
    render_width: head.width as u32,
    render_height: head.height as u32,
    frame: Arc::new(frame),
    input_hres: fs.input_hres,
    input_qres: fs.input_qres,
    cdfs: fs.cdfs,
    frame_me_stats: fs.frame_me_stats,
    output_frameno: 0,
    segmentation: fs.segmentation,
  }
}

fn code_tile<T: Pixel>(fi: &FrameInvariants<T>, fs: &mut FrameState<T>, tile: &Tile) {
  let mut blocks = FrameBlocks::new(fi.w_in_b, fi.h_in_b);
  let mut blocks = TileBlocksMut::new(&mut blocks, tile.x / 4, tile.y / 4, tile.width / 4, tile.height / 4);
  let mut contexts = CDFContext::new(0);
  let mut cw = ContextWriter::new(&mut contexts, BlockContext::new(&mut blocks));
  let first = PlaneSuperBlockOffset(SuperBlockOffset { x: tile.x / 64, y: tile.y / 64 });
  let stats = fs.frame_me_stats.clone();
  let stats = &mut *stats.write().unwrap();
  let ts = &mut TileStateMut::new(fs, first, 6, tile.width, tile.height, stats);
  for leaf in tile.leaves {
    Coding::new(fi, leaf).code(ts, &mut cw);
  }
}

/// A leaf as rav1e's functions take it.
struct Coding<'a, T: Pixel> {
  fi: &'a FrameInvariants<T>,
  leaf: &'a Leaf,
  at: TileBlockOffset,
  size: BlockSize,
  halved: (usize, usize),
  references: [RefType; 2],
  vectors: [MotionVector; 2],
}

impl<'a, T: Pixel> Coding<'a, T> {
  fn new(fi: &'a FrameInvariants<T>, leaf: &'a Leaf) -> Self {
    let mut references = [RefType::NONE_FRAME; 2];
    let mut vectors = [MotionVector::default(); 2];
    for (i, &(reference, row, col)) in leaf.motion.iter().enumerate() {
      references[i] = ALL_INTER_REFS[reference as usize - 1];
      vectors[i] = MotionVector { row, col };
    }
    if leaf.motion.is_empty() {
      references[0] = RefType::INTRA_FRAME;
    }
    let at = TileBlockOffset(BlockOffset { x: leaf.x / 4, y: leaf.y / 4 });
    let size = BlockSize::from_width_and_height(leaf.width, leaf.height);
    let halved = fi.sequence.chroma_sampling.get_decimation().unwrap();
    Coding { fi, leaf, at, size, halved, references, vectors }
  }

  fn mode(&self) -> PredictionMode {
    MODES[self.leaf.mode as usize]
  }

  /// The mode of chroma, and what it is given in plane 1 or 2.
  fn chroma(&self, plane: usize) -> (PredictionMode, IntraParam) {
    match self.leaf.chroma.as_ref() {
      Some(Chroma::Plain { mode, step }) => (MODES[*mode as usize], IntraParam::AngleDelta(*step)),
      Some(Chroma::FromLuma { weights }) => (MODES[FROM_LUMA as usize], IntraParam::Alpha(weights[plane - 1] as i16)),
      None if self.leaf.motion.is_empty() => (PredictionMode::DC_PRED, IntraParam::AngleDelta(0)),
      None => (self.mode(), IntraParam::AngleDelta(0)),
    }
  }

  fn code(&self, ts: &mut TileStateMut<'_, T>, cw: &mut ContextWriter) {
    self.keep(ts, cw);
    let carries = self.leaf.chroma_kind.is_some();
    let (xdec, ydec) = self.halved;
    assert_eq!(carries, has_chroma(self.at, self.size, xdec, ydec, self.fi.sequence.chroma_sampling));
    if !self.leaf.motion.is_empty() {
      self.move_references(ts, cw);
    }
    self.luma(ts);
    if carries {
      let mut room = Aligned::<[MaybeUninit<i16>; 32 * 32]>::uninit_array();
      let from_luma = matches!(self.leaf.chroma, Some(Chroma::FromLuma { .. }));
      let size = SIZES[self.leaf.size as usize];
      let ac = if from_luma { luma_ac(&mut room.data, ts, self.at, self.size, size, self.fi) } else { &mut [] };
      for plane in 1..3 {
        self.chroma_blocks(ts, plane, ac);
      }
    }
  }

  /// Keeps what later leaves ask of this one.
  fn keep(&self, ts: &mut TileStateMut<'_, T>, cw: &mut ContextWriter) {
    let blocks = &mut cw.bc.blocks;
    blocks.set_block_size(self.at, self.size);
    blocks.set_mode(self.at, self.size, self.mode());
    blocks.set_ref_frames(self.at, self.size, self.references);
    blocks.set_motion_vectors(self.at, self.size, self.vectors);
    for y in self.at.0.y..(self.at.0.y + self.size.height_mi()).min(ts.mi_height) {
      for x in self.at.0.x..(self.at.0.x + self.size.width_mi()).min(ts.mi_width) {
        let info = &mut ts.coded_block_info[y][x];
        info.luma_mode = self.mode();
        info.chroma_mode = self.chroma(1).0;
        info.reference_types = self.references;
      }
    }
  }

  /// Whether the leaf carries chroma that others share, and all of these are from references: it is then predicted in parts.
  fn predicts_parts(&self, cw: &ContextWriter) -> bool {
    let narrow = self.halved.0 == 1 && self.leaf.width == 4;
    let low = self.halved.1 == 1 && self.leaf.height == 4;
    let others = [(narrow, -1, 0), (low, 0, -1), (narrow && low, -1, -1)];
    let is_intra = |x, y| cw.bc.blocks[self.at.with_offset(x, y)].mode.is_intra();
    self.leaf.chroma_kind.is_some()
      && (narrow || low)
      && !others.iter().any(|&(shares, x, y)| shares && is_intra(x, y))
  }

  /// Predicts from references: by `motion_compensate`, which for chroma of leaves under 8x8 holds only in 4:2:0, and predicts
  /// no parts in other leaves.
  fn move_references(&self, ts: &mut TileStateMut<'_, T>, cw: &mut ContextWriter) {
    let under_8x8 = self.leaf.width.max(self.leaf.height) <= 8 && self.leaf.width.min(self.leaf.height) == 4;
    let is_420 = self.halved == (1, 1);
    if self.predicts_parts(cw) && !(under_8x8 && is_420) {
      super::no_answer();
    }
    let luma_only = under_8x8 && !is_420;
    motion_compensate(self.fi, ts, cw, self.mode(), self.references, self.vectors, self.size, self.at, luma_only);
    if luma_only && self.leaf.chroma_kind.is_some() {
      self.move_chroma(ts);
    }
  }

  /// Predicts chroma that no leaves share.
  fn move_chroma(&self, ts: &mut TileStateMut<'_, T>) {
    let (xdec, ydec) = self.halved;
    let area = self.size.subsampled_size(xdec, ydec).unwrap();
    let tile_rect = ts.tile_rect().decimated(xdec, ydec);
    for plane in 1..3 {
      let rec = &mut ts.rec.planes[plane];
      let place = self.at.plane_offset(rec.plane_cfg);
      self.mode().predict_inter(
        self.fi, tile_rect, plane, place, &mut rec.subregion_mut(Area::BlockStartingAt { bo: self.at.0 }), area.width(),
        area.height(), self.references, self.vectors, &mut ts.inter_compound_buffers,
      );
    }
  }

  fn luma(&self, ts: &mut TileStateMut<'_, T>) {
    let size = SIZES[self.leaf.size as usize];
    let across = self.leaf.width / size.width();
    for by in 0..self.leaf.height / size.height() {
      for bx in 0..across {
        let x = self.at.0.x + bx * size.width_mi();
        let y = self.at.0.y + by * size.height_mi();
        let cell = TileBlockOffset(BlockOffset { x, y });
        let place = cell.plane_offset(&ts.input.planes[0].cfg);
        let block = Block { plane: 0, number: by * across + bx, unit: (bx, by), cell, place, size };
        self.block(ts, block, self.mode(), IntraParam::AngleDelta(self.leaf.step), &[]);
      }
    }
  }

  fn chroma_blocks(&self, ts: &mut TileStateMut<'_, T>, plane: usize, ac: &[i16]) {
    let (xdec, ydec) = self.halved;
    let size = self.size.largest_chroma_tx_size(xdec, ydec);
    let area = self.size.subsampled_size(xdec, ydec).unwrap();
    let across = area.width() / size.width();
    let (mode, param) = self.chroma(plane);
    for by in 0..area.height() / size.height() {
      for bx in 0..across {
        let x = self.at.0.x + (bx * size.width_mi() << xdec) - if self.leaf.width == 4 { xdec } else { 0 };
        let y = self.at.0.y + (by * size.height_mi() << ydec) - if self.leaf.height == 4 { ydec } else { 0 };
        let mut place = self.at.plane_offset(&ts.input.planes[plane].cfg);
        place.x += (bx * size.width()) as isize;
        place.y += (by * size.height()) as isize;
        let cell = TileBlockOffset(BlockOffset { x, y });
        let block = Block { plane, number: by * across + bx, unit: (bx, by), cell, place, size };
        self.block(ts, block, mode, param, ac);
      }
    }
  }

  /// Predicts a transform block where the leaf is intra, and adds its residual.
  fn block(&self, ts: &mut TileStateMut<'_, T>, block: Block, mode: PredictionMode, param: IntraParam, ac: &[i16]) {
    if block.cell.0.x >= ts.mi_width || block.cell.0.y >= ts.mi_height {
      return;
    }
    if self.leaf.motion.is_empty() {
      self.predict(ts, &block, mode, param, ac);
    }
    let triples = self.leaf.triples[block.plane].iter().filter(|triple| triple.0 as usize == block.number);
    let mut coefficients = [T::Coeff::cast_from(0); 32 * 32];
    let mut count = 0;
    for &(_, place, value) in triples {
      coefficients[place as usize] = T::Coeff::cast_from(value);
      count = count.max(place + 1);
    }
    if count > 0 {
      let kind = if block.plane == 0 { self.leaf.kind } else { self.leaf.chroma_kind.unwrap() };
      let target = &mut ts.rec.planes[block.plane].subregion_mut(block.area());
      let (depth, cpu) = (self.fi.sequence.bit_depth, self.fi.cpu_feature_level);
      inverse_transform_add(&coefficients, target, count, block.size, TYPES[kind as usize], depth, cpu);
    }
  }

  fn predict(&self, ts: &mut TileStateMut<'_, T>, block: &Block, mode: PredictionMode, param: IntraParam, ac: &[i16]) {
    let (xdec, ydec) = if block.plane == 0 { (0, 0) } else { self.halved };
    let edge_filter = self.fi.sequence.enable_intra_edge_filter;
    let neighbours = (mode.is_directional() && edge_filter).then(|| {
      let (above, left) = (ts.above_block_info(self.at, xdec, ydec), ts.left_block_info(self.at, xdec, ydec));
      IntraEdgeFilterParameters::new(block.plane, above, left)
    });
    let tile_rect = ts.tile_rect().decimated(xdec, ydec);
    let rec = &mut ts.rec.planes[block.plane];
    let depth = self.fi.sequence.bit_depth;
    let mut room = Aligned::uninit_array();
    let (bx, by) = block.unit;
    let edge = get_intra_edges(
      &mut room, &rec.as_const(), self.at, bx, by, self.size, block.place, block.size, depth, Some(mode), edge_filter, param,
    );
    let target = &mut rec.subregion_mut(block.area());
    mode.predict_intra(tile_rect, target, block.size, depth, ac, param, neighbours, &edge, self.fi.cpu_feature_level);
  }
}

/// A transform block: its number among those of its plane, its place in the leaf in blocks, its cell in the tile and its first
/// sample in its plane.
struct Block {
  plane: usize,
  number: usize,
  unit: (usize, usize),
  cell: TileBlockOffset,
  place: PlaneOffset,
  size: TxSize,
}

impl Block {
  fn area(&self) -> Area {
    Area::BlockRect { bo: self.cell.0, width: self.size.width(), height: self.size.height() }
  }
}
