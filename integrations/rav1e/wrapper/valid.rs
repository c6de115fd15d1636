//! Whether the leaves of a plan are valid (docs/PLAN_FORMAT.md), and why not.

use super::plan::{Chroma, Head, Leaf, FROM_LUMA};
use super::samples::{SIZES, TYPES};
use crate::partition::BlockSize;
use crate::transform::{valid_av1_transform, TxSize, TxType};

/// The first leaf at fault, and the first reason that holds for it.
pub type Fault = (usize, &'static str);

pub fn check(head: &Head, leaves: &[Leaf]) -> Result<(), Fault> {
  leaves.iter().enumerate().try_for_each(|(number, leaf)| reason(head, leaf).map_or(Ok(()), |reason| Err((number, reason))))
}

fn reason(head: &Head, leaf: &Leaf) -> Option<&'static str> {
  let (xdec, ydec) = head.halved(1);
  let size = BlockSize::from_width_and_height(leaf.width, leaf.height);
  if size.subsampled_size(xdec, ydec).is_err() {
    return Some("block size");
  }
  let transform = SIZES[leaf.size as usize];
  let wide = transform.width() > leaf.width || transform.height() > leaf.height;
  let chroma = leaf.chroma_kind.map(|kind| (size.largest_chroma_tx_size(xdec, ydec), kind));
  if wide || !exists(transform, leaf.kind) || chroma.is_some_and(|(size, kind)| !exists(size, kind)) {
    return Some("transform");
  }
  if !has_mode(head, leaf) {
    return Some("mode");
  }
  if leaf.motion.iter().any(|&(_, row, column)| row.unsigned_abs() >= 16384 || column.unsigned_abs() >= 16384) {
    return Some("vector");
  }
  let slot = |reference: u8| head.slots[reference as usize - 1];
  if leaf.motion.iter().any(|&(reference, ..)| head.mask >> slot(reference) & 1 == 0) {
    return Some("missing reference");
  }
  (!(0..3).all(|plane| has_coefficients(head, leaf, plane))).then_some("coefficient")
}

/// Whether a transform of this size has this type.
fn exists(size: TxSize, kind: u8) -> bool {
  let kind = TYPES[kind as usize];
  valid_av1_transform(size, kind) && (kind != TxType::WHT_WHT || size == TxSize::TX_4X4)
}

fn has_step(mode: u8, step: i8) -> bool {
  (-3..=3).contains(&step) && (step == 0 || (1..=8).contains(&mode))
}

fn has_mode(head: &Head, leaf: &Leaf) -> bool {
  if !leaf.motion.is_empty() {
    return head.version == 3 || leaf.width.min(leaf.height) > 4;
  }
  let chroma = match &leaf.chroma {
    None => true,
    Some(Chroma::Plain { mode, step }) => has_step(*mode, *step),
    Some(Chroma::FromLuma { weights }) => {
      leaf.width.max(leaf.height) <= 32 && weights.iter().all(|weight| (-16..=16).contains(weight))
    }
  };
  leaf.mode != FROM_LUMA && has_step(leaf.mode, leaf.step) && chroma
}

/// Whether the triples of a plane rise, and each names a coefficient that its block has.
fn has_coefficients(head: &Head, leaf: &Leaf, plane: usize) -> bool {
  let triples = &leaf.triples[plane];
  if triples.is_empty() {
    return true;
  }
  let (xdec, ydec) = head.halved(plane);
  let area = BlockSize::from_width_and_height(leaf.width, leaf.height).subsampled_size(xdec, ydec).unwrap();
  let size = if plane == 0 {
    SIZES[leaf.size as usize]
  } else {
    BlockSize::from_width_and_height(leaf.width, leaf.height).largest_chroma_tx_size(xdec, ydec)
  };
  let (left, top) = ((leaf.x / 4 >> xdec) * 4, (leaf.y / 4 >> ydec) * 4);
  let (width, height) = (head.coded().0 >> xdec, head.coded().1 >> ydec);
  let (across, down) = (area.width() / size.width(), area.height() / size.height());
  let places = size.width().min(32) * size.height().min(32);
  let end = 1 << (head.depth + 7);
  triples.is_sorted_by(|a, b| (a.0, a.1) < (b.0, b.1))
    && triples.iter().all(|&(block, place, value)| {
      let (column, row) = (block as usize % across, block as usize / across);
      row < down
        && left + column * size.width() < width
        && top + row * size.height() < height
        && (place as usize) < places
        && (-end..end).contains(&value)
    })
}
