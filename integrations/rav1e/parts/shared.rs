//! Predicts the chroma that leaves with a side of 4 share, as AV1 has it: where all of them are from references each predicts
//! the part over its own luma.
//!
//! `edits.py` puts this file into a copy of rav1e, whose own code does so for 4x4, 4x8 and 8x4 in 4:2:0 alone.

use crate::context::{BlockContext, TileBlockOffset};
use crate::encoder::FrameInvariants;
use crate::frame::PlaneOffset;
use crate::mc::MotionVector;
use crate::partition::{BlockSize, RefType};
use crate::predict::{InterCompoundBuffers, PredictionMode};
use crate::tiling::{Area, PlaneRegionMut, TileRect};
use crate::util::Pixel;

/// What a leaf is predicted from.
pub struct Motion {
  pub mode: PredictionMode,
  pub references: [RefType; 2],
  pub vectors: [MotionVector; 2],
}

/// Predicts a plane of chroma for the leaf at `at` in parts, the last of them by `own`.  Says whether it has done so: not where
/// the leaf shares none, and not where one of those that share it isn't from references.
#[allow(clippy::too_many_arguments)]
pub fn predict<T: Pixel>(
  fi: &FrameInvariants<T>, tile: TileRect, p: usize, place: PlaneOffset, plane: &mut PlaneRegionMut<'_, T>,
  blocks: &BlockContext, own: Motion, size: BlockSize, at: TileBlockOffset, buffer: &mut InterCompoundBuffers,
) -> bool {
  let (xdec, ydec) = (plane.plane_cfg.xdec, plane.plane_cfg.ydec);
  let cols = (size.width() == 4 && xdec == 1) as isize;
  let rows = (size.height() == 4 && ydec == 1) as isize;
  let leaf = |col: isize, row: isize| &blocks.blocks[at.with_offset(col - cols, row - rows)];
  let earlier = (0..=rows).flat_map(|row| (0..=cols).map(move |col| (col, row))).filter(|&it| it != (cols, rows));
  if cols + rows == 0 || earlier.clone().any(|(col, row)| leaf(col, row).mode.is_intra()) {
    return false;
  }
  let (width, height) = (size.width() >> xdec, size.height() >> ydec);
  let mut part = |col: isize, row: isize, motion: Motion| {
    let place = PlaneOffset { x: place.x + col * width as isize, y: place.y + row * height as isize };
    let target = &mut plane.subregion_mut(Area::StartingAt { x: place.x, y: place.y });
    motion.mode.predict_inter(fi, tile, p, place, target, width, height, motion.references, motion.vectors, buffer);
  };
  for (col, row) in earlier {
    let it = leaf(col, row);
    part(col, row, Motion { mode: it.mode, references: it.ref_frames, vectors: it.mv });
  }
  part(cols, rows, own);
  true
}
