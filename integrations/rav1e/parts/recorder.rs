//! Writes a plan of each frame that the encoder codes, of several tiles a grid, and the planes that it holds itself.
//!
//! `edits.py` puts this file into a copy of rav1e, with the calls of it: `start` and `finish` around a frame, `begin` and
//! `end` around a leaf, `block` at each transform block.  An encoder that decides by trying codes a place several times; the
//! last time is the one that stays in its planes and in its bits.  So the recorder keeps the last leaf over each cell of 4x4.
//! Tiles may be coded by several threads, each of which codes one leaf at a time.

use crate::api::ChromaSampling;
use crate::context::{has_chroma, CFLParams, TileBlockOffset};
use crate::drawing;
use crate::encoder::{FrameInvariants, FrameState};
use crate::frame::Frame;
use crate::mc::{FilterMode, MotionVector};
use crate::partition::{BlockSize, RefType};
use crate::predict::{AngleDelta, PredictionMode};
use crate::tiling::{TileRect, TilingInfo};
use crate::transform::{TxSize, TxType};
use crate::util::{CastFromPrimitive, Pixel};

use std::cell::RefCell;
use std::fs::OpenOptions;
use std::io::Write;
use std::sync::atomic::{AtomicBool, Ordering::Relaxed};
use std::sync::{Mutex, OnceLock};

/// The number of an intra mode is at most that of chroma from luma.
const CHROMA_FROM_LUMA: u8 = 13;
/// The first mode with two references.
const FIRST_WITH_TWO: u8 = 20;
/// The side of a superblock, in cells.
const SUPERBLOCK: usize = 16;

/// A coefficient that isn't 0: the number of its block, its place there, its value.
type Triple = (u8, u16, i32);

/// A leaf; until it is coded (x, y) is its cell in its tile, and then in the frame.
struct Leaf {
  x: usize,
  y: usize,
  tile: (usize, usize),
  size: BlockSize,
  luma: u8,
  chroma: u8,
  steps: AngleDelta,
  weights: [i8; 2],
  references: [RefType; 2],
  vectors: [MotionVector; 2],
  transform: u8,
  luma_type: u8,
  chroma_type: u8,
  halved: (usize, usize),
  carries_chroma: bool,
  coefficients: [Vec<Triple>; 3],
}

impl Leaf {
  fn is_intra(&self) -> bool {
    self.luma <= CHROMA_FROM_LUMA
  }

  fn references(&self) -> usize {
    match self.luma {
      0..=CHROMA_FROM_LUMA => 0,
      n if n < FIRST_WITH_TWO => 1,
      _ => 2,
    }
  }
}

struct Recorder {
  folder: String,
  frame: usize,
  width: usize,
  height: usize,
  xdec: usize,
  ydec: usize,
  cols: usize,
  rows: usize,
  leaves: Vec<Leaf>,
  cells: Vec<usize>,
  tiles: (Vec<usize>, Vec<usize>),
}

static RECORDER: Mutex<Option<Recorder>> = Mutex::new(None);

/// Set while leaves are recorded: from `start` to `finish`.
static ON: AtomicBool = AtomicBool::new(false);

/// Set while a frame is coded only to count its bits, as rav1e does for a target bitrate; it is coded once more after that.
static TRIAL: AtomicBool = AtomicBool::new(false);

thread_local! {
  /// The leaf that this thread is coding.
  static CURRENT: RefCell<Option<Leaf>> = const { RefCell::new(None) };
}

/// The next frame is coded only to count its bits.
pub fn trial() {
  TRIAL.store(true, Relaxed);
}

/// A setting, by its variable of the environment; one that is empty isn't set.
pub fn setting(name: &str) -> Option<String> {
  std::env::var(name).ok().filter(|value| !value.is_empty())
}

/// Whether deblocking, CDEF and restoration stay as the encoder wants them.
pub fn filters_on() -> bool {
  setting("RECORD_LOOP_FILTERS").is_some()
}

/// Whether the search tries nodes of four leaves in a column or a row.
pub fn quarters() -> bool {
  setting("RECORD_QUARTERS").is_some()
}

/// Whether the search tries transform types on leaves that are predicted from references.
pub fn inter_types() -> bool {
  setting("RECORD_ALL_TYPES").is_some()
}

/// Whether the stream's intra edge filter is on.
pub fn edge_filter() -> bool {
  setting("RECORD_NO_EDGE_FILTER").is_none()
}

/// Whether plans are of versions 1 and 2, whose sides are multiples of 8, in place of version 3.
pub fn earlier_versions() -> bool {
  setting("RECORD_EARLIER_VERSIONS").is_some()
}

/// Whether a leaf of this size may be predicted from references: not in versions 1 and 2 where it has a side of 4.
pub fn admits_references(size: BlockSize) -> bool {
  static ALL: OnceLock<bool> = OnceLock::new();
  *ALL.get_or_init(|| !earlier_versions()) || size.width() >= 8 && size.height() >= 8
}

/// Which short filter stands for `filter` along sides up to 4, 0 the regular one and 1 the smooth one: AV1's choice, which is
/// the regular one for the sharp filter; with plans of versions 1 and 2 that of rav1e, unless RECORD_SHORT_AS_AV1 is set.
pub fn short_filter(filter: usize) -> usize {
  static AS_AV1: OnceLock<bool> = OnceLock::new();
  if *AS_AV1.get_or_init(|| !earlier_versions() || setting("RECORD_SHORT_AS_AV1").is_some()) {
    filter & 1
  } else {
    filter.min(1)
  }
}

/// Whether identities wrap at 32 bits, as rav1e has them: with plans of versions 1 and 2.
pub fn identities_wrap() -> bool {
  static WRAPS: OnceLock<bool> = OnceLock::new();
  *WRAPS.get_or_init(earlier_versions)
}

/// A value that an identity scales by so many 4096ths: as AV1 has it, or as rav1e, where it wraps.
pub fn scaled(factor: i32, value: i32) -> i32 {
  if identities_wrap() {
    factor.wrapping_mul(value).wrapping_add(1 << 11) >> 12
  } else {
    (factor as i64 * value as i64 + (1 << 11) >> 12) as i32
  }
}

/// The interpolation filter of a frame: RECORD_FILTER is its number, `turn` for all but the sharp one in turn, or `drawn`.
pub fn filter_of(frame: usize) -> FilterMode {
  let number = match setting("RECORD_FILTER").as_deref() {
    None => 0,
    Some("turn") => [0, 1, 3][frame % 3],
    Some("drawn") => drawing::below(4),
    Some(word) => word.parse::<usize>().expect("a filter is 0 to 3"),
  };
  [FilterMode::REGULAR, FilterMode::SMOOTH, FilterMode::SHARP, FilterMode::BILINEAR][number]
}

/// Whether a frame has no chroma.  It is then written as 4:2:0, and its chroma is grey: each leaf has DC without coefficients,
/// and so have the references.
fn is_monochrome<T: Pixel>(fi: &FrameInvariants<T>) -> bool {
  fi.sequence.chroma_sampling == ChromaSampling::Cs400
}

/// Where the tiles' columns begin, and their rows, in cells.
fn tile_starts(tiling: &TilingInfo) -> (Vec<usize>, Vec<usize>) {
  let starts = |count: usize, superblocks: usize| (0..count).map(|i| i * superblocks * SUPERBLOCK).collect();
  (starts(tiling.cols, tiling.tile_width_sb), starts(tiling.rows, tiling.tile_height_sb))
}

/// A frame is to be coded.
pub fn start<T: Pixel>(fi: &FrameInvariants<T>, fs: &FrameState<T>) {
  let Some(folder) = setting("RECORD_FOLDER") else { return };
  if TRIAL.load(Relaxed) {
    return;
  }
  let mut recorder = RECORDER.lock().unwrap();
  let frame = recorder.as_ref().map_or(0, |r| r.frame);
  let coded = (4 * fi.w_in_b, 4 * fi.h_in_b);
  let (width, height) = if earlier_versions() { coded } else { (fi.width, fi.height) };
  let chroma = &fs.rec.planes[1].cfg;
  let (xdec, ydec) = if is_monochrome(fi) { (1, 1) } else { (chroma.xdec, chroma.ydec) };
  *recorder = Some(Recorder {
    folder,
    frame,
    width,
    height,
    xdec,
    ydec,
    cols: fi.w_in_b,
    rows: fi.h_in_b,
    leaves: vec![],
    cells: vec![usize::MAX; fi.w_in_b * fi.h_in_b],
    tiles: tile_starts(&fi.sequence.tiling),
  });
  ON.store(true, Relaxed);
}

/// A leaf is to be coded in a tile.  What isn't `kept` is a trial whose planes the encoder doesn't make.
#[allow(clippy::too_many_arguments)]
pub fn begin(
  tile: TileRect, at: TileBlockOffset, size: BlockSize, luma: PredictionMode, chroma: PredictionMode, steps: AngleDelta,
  cfl: CFLParams, references: [RefType; 2], vectors: [MotionVector; 2], transform: TxSize, luma_type: TxType,
  sampling: ChromaSampling, kept: bool,
) {
  if !kept || !ON.load(Relaxed) {
    return;
  }
  let grey = sampling == ChromaSampling::Cs400;
  let (chroma, sampling) = if grey { (PredictionMode::DC_PRED, ChromaSampling::Cs420) } else { (chroma, sampling) };
  let (xdec, ydec) = sampling.get_decimation().unwrap();
  let weight = |plane| if chroma.is_cfl() { cfl.alpha(plane) as i8 } else { 0 };
  let leaf = Leaf {
    x: at.0.x,
    y: at.0.y,
    tile: (tile.x / 4, tile.y / 4),
    size,
    luma: luma as u8,
    chroma: chroma as u8,
    steps: AngleDelta { y: steps.y, uv: if grey { 0 } else { steps.uv } },
    weights: [weight(0), weight(1)],
    references,
    vectors,
    transform: transform as u8,
    luma_type: luma_type as u8,
    chroma_type: 0,
    halved: (xdec, ydec),
    carries_chroma: has_chroma(at, size, xdec, ydec, sampling),
    coefficients: [vec![], vec![], vec![]],
  };
  CURRENT.with_borrow_mut(|current| *current = Some(leaf));
}

/// The coefficients of one transform block of the leaf that is being coded, as the inverse transform gets them, or none of
/// them where the leaf is skipped.  (x, y) is the block's first sample in its plane of the tile.
pub fn block<C: Copy>(plane: usize, x: isize, y: isize, size: TxSize, kind: TxType, coefficients: &[C])
where
  i32: CastFromPrimitive<C>,
{
  CURRENT.with_borrow_mut(|current| {
    let Some(leaf) = current.as_mut() else { return };
    let (xdec, ydec) = if plane == 0 { (0, 0) } else { leaf.halved };
    if plane > 0 {
      leaf.chroma_type = kind as u8;
    }
    let left = (leaf.x >> xdec) * 4;
    let top = (leaf.y >> ydec) * 4;
    let across = (leaf.size.width() >> xdec).max(4) / size.width();
    let number = (y as usize - top) / size.height() * across + (x as usize - left) / size.width();
    let values = coefficients.iter().map(|&c| i32::cast_from(c)).enumerate();
    leaf.coefficients[plane].extend(
      values.filter(|&(_, value)| value != 0).map(|(place, value)| (number as u8, place as u16, value)),
    );
  });
}

/// The leaf is coded.
pub fn end() {
  let Some(mut leaf) = CURRENT.take() else { return };
  let mut recorder = RECORDER.lock().unwrap();
  let Some(r) = recorder.as_mut() else { return };
  leaf.x += leaf.tile.0;
  leaf.y += leaf.tile.1;
  let number = r.leaves.len();
  for y in leaf.y..(leaf.y + leaf.size.height_mi()).min(r.rows) {
    for x in leaf.x..(leaf.x + leaf.size.width_mi()).min(r.cols) {
      r.cells[y * r.cols + x] = number;
    }
  }
  r.leaves.push(leaf);
}

/// A sample as it stands in a file.
fn write_sample(out: &mut Vec<u8>, sample: u16, depth: usize) {
  if depth == 8 {
    out.push(sample as u8);
  } else {
    out.extend_from_slice(&sample.to_le_bytes());
  }
}

/// The planes of so many columns and rows of luma, as a plan's references and a trace's planes stand.
fn write_planes<T: Pixel>(out: &mut Vec<u8>, frame: &Frame<T>, width: usize, height: usize, depth: usize) {
  for plane in frame.planes.iter() {
    if plane.cfg.width == 0 {
      for _ in 0..width.div_ceil(2) * height.div_ceil(2) {
        write_sample(out, 1 << (depth - 1), depth);
      }
      continue;
    }
    let width = (width + plane.cfg.xdec) >> plane.cfg.xdec;
    let height = (height + plane.cfg.ydec) >> plane.cfg.ydec;
    for row in plane.data_origin().chunks(plane.cfg.stride).take(height) {
      for &sample in &row[..width] {
        write_sample(out, u16::cast_from(sample), depth);
      }
    }
  }
}

impl Recorder {
  fn at(&self, x: usize, y: usize) -> &Leaf {
    &self.leaves[self.cells[y * self.cols + x]]
  }

  fn prediction(out: &mut Vec<u8>, leaf: &Leaf) {
    out.push(leaf.luma);
    if leaf.is_intra() {
      out.push(leaf.steps.y as u8);
      if leaf.carries_chroma {
        out.push(leaf.chroma);
        if leaf.chroma == CHROMA_FROM_LUMA {
          out.extend(leaf.weights.iter().map(|&weight| weight as u8));
        } else {
          out.push(leaf.steps.uv as u8);
        }
      }
    }
    for i in 0..leaf.references() {
      out.push(leaf.references[i] as u8);
      out.extend_from_slice(&leaf.vectors[i].row.to_le_bytes());
      out.extend_from_slice(&leaf.vectors[i].col.to_le_bytes());
    }
  }

  fn leaf(&self, out: &mut Vec<u8>, x: usize, y: usize, w: usize, h: usize) {
    let leaf = self.at(x, y);
    assert_eq!((leaf.x, leaf.y), (x, y));
    assert_eq!((leaf.size.width_mi(), leaf.size.height_mi()), (w, h));
    Self::prediction(out, leaf);
    out.push(leaf.transform);
    out.push(leaf.luma_type);
    if leaf.carries_chroma {
      out.push(leaf.chroma_type);
    }
    for triples in &leaf.coefficients[..if leaf.carries_chroma { 3 } else { 1 }] {
      out.extend_from_slice(&(triples.len() as u16).to_le_bytes());
      for &(block, place, value) in triples {
        out.push(block);
        out.extend_from_slice(&place.to_le_bytes());
        out.extend_from_slice(&value.to_le_bytes());
      }
    }
  }

  fn node(&self, out: &mut Vec<u8>, x: usize, y: usize, side: usize) {
    if x >= self.cols || y >= self.rows {
      return;
    }
    let first = self.at(x, y);
    let (mut w, mut h) = (first.size.width_mi(), first.size.height_mi());
    assert_eq!((first.x, first.y), (x, y));
    let mark = match (w * 4 / side, h * 4 / side) {
      (4, 4) => 0,
      (4, 2) => 1,
      (2, 4) => 2,
      (4, 1) => 8,
      (1, 4) => 9,
      _ => 3,
    };
    out.push(mark);
    if mark == 3 && side > 2 {
      let half = side / 2;
      for (dx, dy) in [(0, 0), (half, 0), (0, half), (half, half)] {
        self.node(out, x + dx, y + dy, half);
      }
      return;
    }
    if mark == 3 {
      (w, h) = (1, 1);
    }
    for dy in (0..side).step_by(h) {
      for dx in (0..side).step_by(w) {
        if x + dx < self.cols && y + dy < self.rows {
          self.leaf(out, x + dx, y + dy, w, h);
        }
      }
    }
  }

  /// Whether some leaf is four times as long as it is wide, or as wide as it is long.
  fn has_quarters(&self) -> bool {
    let sizes = self.cells.iter().map(|&n| (self.leaves[n].size.width(), self.leaves[n].size.height()));
    sizes.into_iter().any(|(w, h)| w == 4 * h || h == 4 * w)
  }

  /// Whether the frame has several tiles, so that a grid is written.
  fn has_tiles(&self) -> bool {
    self.tiles.0.len() * self.tiles.1.len() > 1
  }

  /// The letters of the version of the grid or plan.
  fn letters(&self) -> &'static [u8; 4] {
    match (self.has_tiles(), earlier_versions(), self.has_quarters()) {
      (true, false, _) => b"RTL2",
      (true, true, _) => b"RTL1",
      (false, false, _) => b"RPL3",
      (false, true, true) => b"RPL2",
      (false, true, false) => b"RPL1",
    }
  }

  /// Bit s: some leaf is predicted from slot s.
  fn mask(&self, slots: &[u8]) -> u8 {
    let leaves = self.cells.iter().map(|&n| &self.leaves[n]);
    leaves
      .flat_map(|leaf| leaf.references[..leaf.references()].iter())
      .fold(0, |mask, &reference| mask | 1 << slots[reference as usize - 1])
  }

  /// What stands first in a plan and in a grid.
  fn head<T: Pixel>(&self, fi: &FrameInvariants<T>, mask: u8) -> Vec<u8> {
    let depth = fi.sequence.bit_depth;
    let mut head = self.letters().to_vec();
    head.extend_from_slice(&(self.width as u16).to_le_bytes());
    head.extend_from_slice(&(self.height as u16).to_le_bytes());
    let sampling = 2 - self.xdec - self.ydec;
    head.extend([depth as u8, sampling as u8, fi.default_filter as u8, fi.sequence.enable_intra_edge_filter as u8]);
    head.extend(fi.ref_frames.iter().map(|&slot| if fi.intra_only { 0 } else { slot }));
    head.push(mask);
    for slot in (0..8).filter(|slot| mask >> slot & 1 == 1) {
      let held = fi.rec_buffer.frames[slot].as_ref().unwrap();
      write_planes(&mut head, &held.frame, self.width, self.height, depth);
    }
    head
  }

  /// The leaves of the tile that begins in these cells, by superblock.
  fn part(&self, left: usize, top: usize) -> Vec<u8> {
    let behind = |starts: &[usize], first: usize, last: usize| starts.iter().copied().find(|&it| it > first).unwrap_or(last);
    let mut part = vec![];
    for y in (top..behind(&self.tiles.1, top, self.rows)).step_by(SUPERBLOCK) {
      for x in (left..behind(&self.tiles.0, left, self.cols)).step_by(SUPERBLOCK) {
        self.node(&mut part, x, y, SUPERBLOCK);
      }
    }
    part
  }

  /// The tiles, as they stand in a grid.
  fn grid(&self) -> Vec<u8> {
    let mut out = vec![];
    for starts in [&self.tiles.0, &self.tiles.1] {
      out.push(starts.len() as u8);
      out.extend(starts[1..].iter().flat_map(|start| (4 * *start as u16).to_le_bytes()));
    }
    for &y in &self.tiles.1 {
      for &x in &self.tiles.0 {
        let part = self.part(x, y);
        out.extend_from_slice(&(part.len() as u32).to_le_bytes());
        out.extend(part);
      }
    }
    out
  }

  /// Writes a file of the frame that is coded.
  fn write(&self, ending: &str, bytes: &[u8]) {
    std::fs::write(format!("{}/{:04}.{ending}", self.folder, self.frame), bytes).unwrap();
  }

  fn log(&self, line: &str) {
    let name = format!("{}/index.txt", self.folder);
    let mut file = OpenOptions::new().create(true).append(true).open(name).unwrap();
    file.write_all(line.as_bytes()).unwrap();
  }
}

/// The frame is coded and not yet filtered: writes its plan and its trace, or its grid and its planes, and tells of it in
/// `index.txt`.
pub fn finish<T: Pixel>(fi: &FrameInvariants<T>, fs: &FrameState<T>) {
  if !ON.swap(false, Relaxed) {
    return;
  }
  let mut recorder = RECORDER.lock().unwrap();
  let r = recorder.as_mut().unwrap();
  let mut planes = vec![];
  write_planes(&mut planes, &fs.rec, r.width, r.height, fi.sequence.bit_depth);
  let mut text = r.head(fi, r.mask(&fi.ref_frames));
  let head = text.len();
  text.extend(if r.has_tiles() { r.grid() } else { r.part(0, 0) });
  if r.has_tiles() {
    r.write("grid", &text);
    r.write("planes", &planes);
  } else {
    r.write("plan", &text);
    r.write("trace", &[b"RTR1", &(text.len() as u32).to_le_bytes(), &text[..], &planes[..]].concat());
  }
  r.log(&format!(
    "coded {} shown {} refresh {} head {head} quantizer {} width {} height {} monochrome {}\n",
    r.frame, fi.show_frame as u8, fi.refresh_frame_flags, fi.base_q_idx, fi.width, fi.height, is_monochrome(fi) as u8
  ));
  r.frame += 1;
}

/// The frame is filtered: what other frames and the viewer see.
pub fn filtered<T: Pixel>(fi: &FrameInvariants<T>, fs: &FrameState<T>) {
  if TRIAL.swap(false, Relaxed) {
    return;
  }
  if let Some(r) = RECORDER.lock().unwrap().as_ref().filter(|_| filters_on()) {
    let mut planes = vec![];
    write_planes(&mut planes, &fs.rec, r.width, r.height, fi.sequence.bit_depth);
    std::fs::write(format!("{}/{:04}.filtered", r.folder, r.frame - 1), &planes).unwrap();
  }
}

/// A frame isn't coded: what a slot holds is shown again.
pub fn shown_again(slot: usize) {
  if let Some(r) = RECORDER.lock().unwrap().as_ref() {
    r.log(&format!("again {slot}\n"));
  }
}
