//! Plans, grids of tiles, traces, and plans without their coefficients.

use super::plan::{self, Head, Leaf, Leaves, Planes, Read, Reader, Slots};
use super::samples::{self, Tile};
use super::{valid, Answer, LIMIT};
use crate::partition::BlockSize;

/// Why a plan, a tile or a frame is refused.
pub enum Refusal {
  Malformed(usize),
  Invalid(usize, &'static str),
}

impl std::fmt::Display for Refusal {
  fn fmt(&self, f: &mut std::fmt::Formatter<'_>) -> std::fmt::Result {
    match self {
      Refusal::Malformed(at) => write!(f, "malformed at {at}"),
      Refusal::Invalid(leaf, reason) => write!(f, "invalid leaf {leaf}: {reason}"),
    }
  }
}

/// The leaves that a part spells from its first byte to its last, in a frame or tile with this head, if they are valid.
pub fn leaves(reader: &mut Reader, head: &Head) -> Result<Leaves, Refusal> {
  let read = plan::leaves(reader, head).map_err(Refusal::Malformed)?;
  valid::check(head, &read.leaves).map_err(|(leaf, reason)| Refusal::Invalid(leaf, reason))?;
  Ok(read)
}

struct Plan {
  head: Head,
  slots: Slots,
  read: Leaves,
}

impl Plan {
  fn read(bytes: &[u8]) -> Result<Self, Refusal> {
    let reader = &mut Reader::new(bytes);
    let version = plan::version(reader, b"RPL", |version| (1..=3).contains(&version)).map_err(Refusal::Malformed)?;
    let (head, slots) = plan::head(reader, version).map_err(Refusal::Malformed)?;
    let read = leaves(reader, &head)?;
    Ok(Plan { head, slots, read })
  }

  fn planes(&self) -> Planes {
    whole(&self.head, &self.slots, &self.read.leaves)
  }
}

/// The planes of a frame of one tile.
pub fn whole(head: &Head, slots: &Slots, leaves: &[Leaf]) -> Planes {
  let (width, height) = head.coded();
  samples::planes(head, slots, &[Tile { x: 0, y: 0, width, height, leaves }])
}

/// Planes as they are written.
pub fn written(head: &Head, planes: &Planes) -> Vec<u8> {
  planes.iter().flatten().flat_map(|sample| sample.to_le_bytes().into_iter().take(head.each())).collect()
}

fn answer(made: Result<Vec<u8>, impl ToString>) -> Answer {
  made.map_or_else(Answer::refused, Answer::done)
}

/// The planes of a plan.
pub fn plan(bytes: &[u8]) -> Answer {
  if bytes.len() > LIMIT {
    return Answer::refused("too long");
  }
  answer(Plan::read(bytes).map(|plan| written(&plan.head, &plan.planes())))
}

/// How many leaves a valid plan has, and the sum of each plane's samples.
pub fn sums(bytes: &[u8]) -> String {
  let plan = Plan::read(bytes).unwrap_or_else(|refusal| panic!("{refusal}"));
  let sums = plan.planes().map(|samples| samples.iter().map(|&sample| sample as u64).sum::<u64>());
  format!("leaves {}\nY {}\nU {}\nV {}\n", plan.read.leaves.len(), sums[0], sums[1], sums[2])
}

/// The plan without its coefficients.
pub fn bare(bytes: &[u8]) -> Answer {
  if bytes.len() > LIMIT {
    return Answer::refused("too long");
  }
  answer(Plan::read(bytes).map(|plan| {
    let (mut out, mut at) = (vec![], 0);
    for (first, count) in plan.read.counts {
      out.extend_from_slice(&bytes[at..first]);
      out.extend_from_slice(&[0, 0]);
      at = first + 2 + 7 * count;
    }
    out.extend_from_slice(&bytes[at..]);
    out
  }))
}

/// The lines of a trace.
pub fn trace(bytes: &[u8]) -> Answer {
  if bytes.len() > 2 * LIMIT {
    return Answer::refused("too long");
  }
  let reader = &mut Reader::new(bytes);
  let text = match plan_of_trace(reader) {
    Ok(text) => text,
    Err(at) => return Answer::refused(Refusal::Malformed(at)),
  };
  let plan = match Plan::read(text) {
    Ok(plan) => plan,
    Err(refusal) => return Answer::refused(format!("plan {refusal}")),
  };
  let given = reader.run(plan.head.size()).and_then(|planes| reader.end().map(|()| planes));
  match given {
    Ok(given) => compared(&plan, given),
    Err(at) => Answer::refused(Refusal::Malformed(at)),
  }
}

fn plan_of_trace<'a>(reader: &mut Reader<'a>) -> Read<&'a [u8]> {
  plan::version(reader, b"RTR", |version| version == 1)?;
  let length = reader.field(4, |length| length <= LIMIT)?;
  reader.run(length)
}

/// A line for each leaf and plane whose planes differ, with its first sample.
fn compared(plan: &Plan, given: &[u8]) -> Answer {
  let head = &plan.head;
  let each = head.each();
  let defined = plan.planes();
  let sample = |at: usize| given[each * at..each * (at + 1)].iter().rev().fold(0, |value, &byte| value << 8 | byte as u16);
  let mut lines = String::new();
  for (number, leaf) in plan.read.leaves.iter().enumerate() {
    let mut before = 0;
    for plane in 0..if leaf.chroma_kind.is_some() { 3 } else { 1 } {
      let (width, height) = head.sides(plane);
      let (left, top, columns, rows) = area(head, leaf, plane);
      let places = (top..(top + rows).min(height)).flat_map(|y| (left..(left + columns).min(width)).map(move |x| (x, y)));
      let differs = |&(x, y): &(usize, usize)| sample(before + y * width + x) != defined[plane][y * width + x];
      if let Some((x, y)) = places.into_iter().find(differs) {
        let (given, defined) = (sample(before + y * width + x), defined[plane][y * width + x]);
        lines += &format!("leaf {number} plane {plane} row {y} column {x} given {given} defined {defined}\n");
      }
      before += width * height;
    }
  }
  if lines.is_empty() {
    return Answer::done(b"same\n".to_vec());
  }
  Answer { out: lines.into_bytes(), status: 7, ..Answer::default() }
}

/// A leaf's rectangle in a plane: its first column and row, and its sides.
fn area(head: &Head, leaf: &Leaf, plane: usize) -> (usize, usize, usize, usize) {
  let (xdec, ydec) = head.halved(plane);
  let size = BlockSize::from_width_and_height(leaf.width, leaf.height).subsampled_size(xdec, ydec).unwrap();
  ((leaf.x / 4 >> xdec) * 4, (leaf.y / 4 >> ydec) * 4, size.width(), size.height())
}

/// A grid of tiles: where its columns and rows begin, and the part of each tile.
struct Grid<'a> {
  head: Head,
  slots: Slots,
  columns: Vec<usize>,
  rows: Vec<usize>,
  parts: Vec<&'a [u8]>,
}

impl<'a> Grid<'a> {
  fn read(bytes: &'a [u8]) -> Read<Self> {
    let reader = &mut Reader::new(bytes);
    let version = 1 + plan::version(reader, b"RTL", |version| (1..=2).contains(&version))?;
    let (head, slots) = plan::head(reader, version)?;
    let (columns, rows) = (starts(reader, head.width)?, starts(reader, head.height)?);
    let mut parts = vec![];
    for _ in 0..columns.len() * rows.len() {
      let length = reader.field(4, |_| true)?;
      parts.push(reader.run(length)?);
    }
    reader.end()?;
    Ok(Grid { head, slots, columns, rows, parts })
  }

  /// The first column and row of a tile, and the frame's head with the tile's sides.
  fn tile(&self, number: usize) -> (usize, usize, Head) {
    let (column, row) = (number % self.columns.len(), number / self.columns.len());
    let (x, y) = (self.columns[column], self.rows[row]);
    let width = self.columns.get(column + 1).unwrap_or(&self.head.width) - x;
    let height = self.rows.get(row + 1).unwrap_or(&self.head.height) - y;
    (x, y, Head { width, height, ..self.head.clone() })
  }

  fn planes(&self, leaves: &[Leaves]) -> Planes {
    let tiles = leaves.iter().enumerate().map(|(number, read)| {
      let (x, y, head) = self.tile(number);
      let (width, height) = head.coded();
      Tile { x, y, width, height, leaves: &read.leaves }
    });
    if self.head.version == 3 {
      samples::planes(&self.head, &self.slots, &tiles.collect::<Vec<_>>())
    } else {
      self.joined(tiles)
    }
  }

  /// In version 2 a tile is a frame of its own, with its rectangle of each reference.
  fn joined<'b>(&self, tiles: impl Iterator<Item = Tile<'b>>) -> Planes {
    let mut planes = [0, 1, 2].map(|plane| vec![0; self.head.sides(plane).0 * self.head.sides(plane).1]);
    for (number, tile) in tiles.enumerate() {
      let head = self.tile(number).2;
      let slots = self.slots.each_ref().map(|slot| slot.as_ref().map(|planes| self.cut(planes, &tile, &head)));
      let made = whole(&head, &slots, tile.leaves);
      for plane in 0..3 {
        let (width, _) = head.sides(plane);
        for (row, samples) in self.rows_of(plane, &tile, &head).zip(made[plane].chunks(width)) {
          planes[plane][row..row + width].copy_from_slice(samples);
        }
      }
    }
    planes
  }

  /// Where the rows of a tile begin among the samples of a plane.
  fn rows_of(&self, plane: usize, tile: &Tile, head: &Head) -> impl Iterator<Item = usize> {
    let (xdec, ydec) = self.head.halved(plane);
    let (stride, height) = (self.head.sides(plane).0, head.sides(plane).1);
    let first = (tile.y >> ydec) * stride + (tile.x >> xdec);
    (0..height).map(move |row| first + row * stride)
  }

  /// A tile's rectangle of planes.
  fn cut(&self, planes: &Planes, tile: &Tile, head: &Head) -> Planes {
    [0, 1, 2].map(|plane| {
      let width = head.sides(plane).0;
      self.rows_of(plane, tile, head).flat_map(|row| planes[plane][row..row + width].iter().copied()).collect()
    })
  }
}

/// Where the columns or rows of tiles begin.
fn starts(reader: &mut Reader, side: usize) -> Read<Vec<usize>> {
  let count = reader.field(1, |count| (1..=32).contains(&count))?;
  let mut starts = vec![0];
  for i in 1..count {
    let last = starts[i - 1];
    starts.push(reader.field(2, |start| start % 64 == 0 && last < start && start < side)?);
  }
  Ok(starts)
}

/// The planes of a grid of tiles.
pub fn tiles(bytes: &[u8]) -> Answer {
  if bytes.len() > LIMIT {
    return Answer::refused("too long");
  }
  let grid = match Grid::read(bytes) {
    Ok(grid) => grid,
    Err(at) => return Answer::refused(Refusal::Malformed(at)),
  };
  let read = grid.parts.iter().enumerate().map(|(number, part)| {
    leaves(&mut Reader::new(part), &grid.tile(number).2).map_err(|refusal| format!("tile {number} {refusal}"))
  });
  answer(read.collect::<Result<Vec<_>, _>>().map(|leaves| written(&grid.head, &grid.planes(&leaves))))
}
