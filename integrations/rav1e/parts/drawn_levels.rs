//! Draws the levels of transform blocks, where an encoder's decisions are drawn (`drawing.rs`).
//!
//! `edits.py` puts this file into a copy of rav1e.

use crate::drawing::{below, on, one_in, one_of};
use crate::quantize::{ac_q, dc_q, get_log_tx_scale};
use crate::recorder::setting;
use crate::scan_order::av1_scan_orders;
use crate::transform::{TxSize, TxType};
use crate::util::{CastFromPrimitive, Coefficient};

use std::sync::atomic::{AtomicBool, Ordering::Relaxed};

/// Where more than one coefficient isn't 0 their magnitudes sum up to at most this, so that no value inside a transform
/// leaves the bits that AV1 asks a stream to keep to (16 in columns at depths 8 and 10, where an identity of 4 gains 1.42).
const MOST_IN_ALL: i64 = 1 << 14;

/// Set while a leaf is coded whose luma blocks must each have a coefficient.
static EACH_HAS_SOME: AtomicBool = AtomicBool::new(false);

/// Says of the leaf that is to be coded whether each of its luma blocks must have a coefficient.
pub fn each_has_some(must: bool) {
  EACH_HAS_SOME.store(must, Relaxed);
}

/// Replaces the levels of a transform block by drawn ones, and gives the number up to the last that isn't 0 in coding order:
/// the encoder's own, none, a few or many small ones, or one at an end of what depth + 8 bits hold.
#[allow(clippy::too_many_arguments)]
pub fn draw<C: Coefficient>(
  plane: usize, size: TxSize, kind: TxType, qidx: u8, depth: usize, deltas: (i8, i8), levels: &mut [C], coded: usize,
) -> usize {
  if !on() {
    return coded;
  }
  let q = Quantizers {
    first: dc_q(qidx, deltas.0, depth) as i64,
    others: ac_q(qidx, deltas.1, depth) as i64,
    shift: get_log_tx_scale(size),
  };
  let scan = &av1_scan_orders[size as usize][kind as usize].scan[..levels.len()];
  let end = greatest_magnitude(size, kind, depth);
  let way = below(8);
  if way >= 3 {
    levels.fill(C::cast_from(0));
  }
  match way {
    3 => {}
    4 => draw_one_at_an_end(scan, &q, end, levels),
    5 => draw_small(&scan[..levels.len().min(10)], 3, &q, levels),
    6 | 7 => draw_small(&scan[..1 + below(levels.len())], 2 + below(14), &q, levels),
    _ => limit(scan, &q, end, levels),
  }
  if plane == 0 && EACH_HAS_SOME.load(Relaxed) && levels.iter().all(|&level| level == C::cast_from(0)) {
    levels[0] = C::cast_from(1);
  }
  scan.iter().rposition(|&place| levels[place as usize] != C::cast_from(0)).map_or(0, |last| last + 1)
}

/// The end of what a coefficient may be: depth + 8 bits.  At depth 12 identities of 4 and 16 along rows wrap at 32 bits in rav1e
/// and in some of dav1d's assembly, where AV1's don't; such coefficients are kept below that, unless RECORD_WRAPPING is set.
fn greatest_magnitude(size: TxSize, kind: TxType, depth: usize) -> i64 {
  let end = (1i64 << (depth + 7)) - 1;
  let identity = matches!(kind, TxType::IDTX | TxType::V_DCT | TxType::V_ADST | TxType::V_FLIPADST);
  let most = match size.width() {
    4 => 370_000,
    16 => 185_000,
    _ => end,
  };
  if identity && setting("RECORD_WRAPPING").is_none() {
    end.min(most)
  } else {
    end
  }
}

/// The quantizers of a transform block and how far its products are shifted.
struct Quantizers {
  first: i64,
  others: i64,
  shift: usize,
}

impl Quantizers {
  fn magnitude(&self, place: usize, level: i64) -> i64 {
    level.abs() * if place == 0 { self.first } else { self.others } >> self.shift
  }

  /// The greatest level whose coefficient is at most `most`.
  fn greatest(&self, place: usize, most: i64) -> i64 {
    ((most + 1 << self.shift) - 1) / if place == 0 { self.first } else { self.others }
  }
}

fn signed<C: Coefficient>(negative: bool, level: i64) -> C {
  C::cast_from(if negative { -level as i32 } else { level as i32 })
}

fn draw_one_at_an_end<C: Coefficient>(scan: &[u16], q: &Quantizers, end: i64, levels: &mut [C]) {
  let place = if one_in(2) { 0 } else { one_of(scan) as usize };
  let negative = one_in(2);
  levels[place] = signed(negative, q.greatest(place, end + negative as i64));
}

/// Levels up to 3, one in `every` place on average, as far as the sum of what they stand for admits.
fn draw_small<C: Coefficient>(scan: &[u16], every: usize, q: &Quantizers, levels: &mut [C]) {
  let mut left = MOST_IN_ALL;
  for &place in scan {
    let level = 1 + below(3) as i64;
    let magnitude = q.magnitude(place as usize, level);
    if one_in(every) && magnitude <= left {
      levels[place as usize] = signed(one_in(2), level);
      left -= magnitude;
    }
  }
}

/// Levels of the encoder's own that pass depth + 8 bits become the greatest that don't.
fn limit<C: Coefficient>(scan: &[u16], q: &Quantizers, end: i64, levels: &mut [C]) {
  for &place in scan {
    let level = i32::cast_from(levels[place as usize]) as i64;
    let most = q.greatest(place as usize, end);
    levels[place as usize] = C::cast_from(level.clamp(-most, most) as i32);
  }
}
