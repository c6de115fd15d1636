//! Reads plans (docs/PLAN_FORMAT.md): each field as soon as it is there, so that the first fault is named.

/// The place of the first field that is cut, has a value that it can't have, or is left over.
pub type Read<T> = Result<T, usize>;

/// Bytes, and how many of them were read.
pub struct Reader<'a> {
  pub bytes: &'a [u8],
  pub at: usize,
}

impl<'a> Reader<'a> {
  pub fn new(bytes: &'a [u8]) -> Self {
    Reader { bytes, at: 0 }
  }

  /// So many bytes, as one field.
  pub fn run(&mut self, count: usize) -> Read<&'a [u8]> {
    let run = self.bytes.get(self.at..).and_then(|rest| rest.get(..count)).ok_or(self.at)?;
    self.at += count;
    Ok(run)
  }

  /// A number of `count` bytes, low ones first, that `admits` accepts.
  pub fn field(&mut self, count: usize, admits: impl Fn(usize) -> bool) -> Read<usize> {
    let first = self.at;
    let value = self.run(count)?.iter().rev().fold(0, |value, &byte| value << 8 | byte as usize);
    if admits(value) {
      Ok(value)
    } else {
      Err(first)
    }
  }

  /// A byte up to `most`.
  pub fn byte(&mut self, most: usize) -> Read<u8> {
    Ok(self.field(1, |value| value <= most)? as u8)
  }

  pub fn signed_byte(&mut self) -> Read<i8> {
    Ok(self.byte(255)? as i8)
  }

  pub fn signed_pair(&mut self) -> Read<i16> {
    Ok(self.field(2, |_| true)? as u16 as i16)
  }

  /// Nothing is left over.
  pub fn end(&self) -> Read<()> {
    if self.at == self.bytes.len() {
      Ok(())
    } else {
      Err(self.at)
    }
  }
}

/// What a plan says before its references.
#[derive(Clone)]
pub struct Head {
  pub version: u8,
  pub width: usize,
  pub height: usize,
  pub depth: usize,
  pub sampling: u8,
  pub filter: u8,
  pub edge_filter: bool,
  pub slots: [u8; 7],
  pub mask: u8,
}

impl Head {
  /// How far a plane's columns and rows are halved.
  pub fn halved(&self, plane: usize) -> (usize, usize) {
    if plane == 0 {
      (0, 0)
    } else {
      ((self.sampling < 2) as usize, (self.sampling == 0) as usize)
    }
  }

  /// The sides of a plane that is shown.
  pub fn sides(&self, plane: usize) -> (usize, usize) {
    let (xdec, ydec) = self.halved(plane);
    ((self.width + xdec) >> xdec, (self.height + ydec) >> ydec)
  }

  /// The sides of luma that are coded: the least multiples of 8.
  pub fn coded(&self) -> (usize, usize) {
    (self.width.next_multiple_of(8), self.height.next_multiple_of(8))
  }

  /// How many bytes a sample has.
  pub fn each(&self) -> usize {
    1 + (self.depth > 8) as usize
  }

  /// How many bytes the planes have.
  pub fn size(&self) -> usize {
    (0..3).map(|plane| self.sides(plane)).map(|(width, height)| width * height * self.each()).sum()
  }
}

/// The samples of Y, U and V, row by row.
pub type Planes = [Vec<u16>; 3];
/// What each slot carries.
pub type Slots = [Option<Planes>; 8];

/// A block, a place in it, a value.
pub type Triple = (u8, u16, i32);

pub enum Chroma {
  Plain { mode: u8, step: i8 },
  FromLuma { weights: [i8; 2] },
}

pub struct Leaf {
  pub x: usize,
  pub y: usize,
  pub width: usize,
  pub height: usize,
  pub mode: u8,
  pub step: i8,
  pub chroma: Option<Chroma>,
  /// A reference, a row and a column each.
  pub motion: Vec<(u8, i16, i16)>,
  pub size: u8,
  pub kind: u8,
  /// Where the leaf carries chroma.
  pub chroma_kind: Option<u8>,
  pub triples: [Vec<Triple>; 3],
}

/// The number of chroma from luma.
pub const FROM_LUMA: u8 = 13;
/// The first mode with two references.
const FIRST_WITH_TWO: u8 = 20;

/// Letters at the front of a file, and the number of the version behind them, which `admits` accepts.
pub fn version(reader: &mut Reader, letters: &[u8; 3], admits: impl Fn(u8) -> bool) -> Read<u8> {
  match reader.run(4)? {
    [front @ .., digit] if front == letters && admits(digit.wrapping_sub(b'0')) => Ok(digit - b'0'),
    _ => Err(0),
  }
}

/// Width, height, depth and sampling.
pub fn format(reader: &mut Reader, version: u8) -> Read<(usize, usize, usize, u8)> {
  let side = |value: usize| (1..=2048).contains(&value) && (version == 3 || value % 8 == 0);
  let (width, height) = (reader.field(2, side)?, reader.field(2, side)?);
  let depth = reader.field(1, |value| [8, 10, 12].contains(&value))?;
  Ok((width, height, depth, reader.byte(2)?))
}

/// Filter, edge filter and slots.
pub fn settings(reader: &mut Reader) -> Read<(u8, bool, [u8; 7])> {
  let (filter, edge_filter) = (reader.byte(3)?, reader.byte(1)? == 1);
  let mut slots = [0; 7];
  for slot in &mut slots {
    *slot = reader.byte(7)?;
  }
  Ok((filter, edge_filter, slots))
}

/// All before the leaves, behind the letters.
pub fn head(reader: &mut Reader, version: u8) -> Read<(Head, Slots)> {
  let (width, height, depth, sampling) = format(reader, version)?;
  let (filter, edge_filter, slots) = settings(reader)?;
  let mask = reader.byte(255)?;
  let head = Head { version, width, height, depth, sampling, filter, edge_filter, slots, mask };
  let mut held = Slots::default();
  for (slot, held) in held.iter_mut().enumerate() {
    if mask >> slot & 1 == 1 {
      *held = Some(planes(reader, &head)?);
    }
  }
  Ok((head, held))
}

fn planes(reader: &mut Reader, head: &Head) -> Read<Planes> {
  let mut planes = Planes::default();
  for (plane, samples) in planes.iter_mut().enumerate() {
    let (width, height) = head.sides(plane);
    for _ in 0..width * height {
      samples.push(reader.field(head.each(), |value| value < 1 << head.depth)? as u16);
    }
  }
  Ok(planes)
}

/// The leaves of a frame or tile, and where each count of triples stands, with the triples behind it.
pub struct Leaves {
  pub leaves: Vec<Leaf>,
  pub counts: Vec<(usize, usize)>,
}

/// Reads the leaves of a frame, up to the last byte.
pub fn leaves(reader: &mut Reader, head: &Head) -> Read<Leaves> {
  let (width, height) = head.coded();
  let mut walk = Walk { reader, head, width, height, read: Leaves { leaves: vec![], counts: vec![] } };
  for y in (0..height).step_by(64) {
    for x in (0..width).step_by(64) {
      walk.node(x, y, 64)?;
    }
  }
  let read = walk.read;
  reader.end()?;
  Ok(read)
}

struct Walk<'a, 'b> {
  reader: &'a mut Reader<'b>,
  head: &'a Head,
  width: usize,
  height: usize,
  read: Leaves,
}

impl Walk<'_, '_> {
  fn node(&mut self, x: usize, y: usize, side: usize) -> Read<()> {
    let whole = x + side <= self.width && y + side <= self.height;
    let quarters = self.head.version > 1 && side > 8 && whole;
    let mark = self.reader.field(1, |mark| mark < 4 || quarters && (mark == 8 || mark == 9))?;
    let (half, quarter) = (side / 2, side / 4);
    let (width, height) = [(side, side), (side, half), (half, side), (half, half)].get(mark).copied().unwrap_or(
      if mark == 8 { (side, quarter) } else { (quarter, side) });
    for y in (y..y + side).step_by(height) {
      for x in (x..x + side).step_by(width) {
        if x >= self.width || y >= self.height {
          continue;
        }
        if mark == 3 && side > 8 {
          self.node(x, y, half)?;
        } else {
          let leaf = self.leaf(x, y, width, height)?;
          self.read.leaves.push(leaf);
        }
      }
    }
    Ok(())
  }

  fn leaf(&mut self, x: usize, y: usize, width: usize, height: usize) -> Read<Leaf> {
    let (xdec, ydec) = self.head.halved(1);
    let hidden = |halved, side, first: usize| halved == 1 && side == 4 && first / 4 % 2 == 0;
    let carries = !hidden(xdec, width, x) && !hidden(ydec, height, y);
    let mode = self.reader.byte(33)?;
    let (mut step, mut chroma, mut motion) = (0, None, vec![]);
    if mode <= FROM_LUMA {
      step = self.reader.signed_byte()?;
      chroma = if carries { Some(self.chroma()?) } else { None };
    } else {
      for _ in 0..if mode < FIRST_WITH_TWO { 1 } else { 2 } {
        let reference = self.reader.field(1, |value| (1..=7).contains(&value))? as u8;
        motion.push((reference, self.reader.signed_pair()?, self.reader.signed_pair()?));
      }
    }
    let (size, kind) = (self.reader.byte(18)?, self.reader.byte(16)?);
    let chroma_kind = if carries { Some(self.reader.byte(16)?) } else { None };
    let mut triples: [Vec<Triple>; 3] = Default::default();
    for list in triples.iter_mut().take(if carries { 3 } else { 1 }) {
      *list = self.triples()?;
    }
    Ok(Leaf { x, y, width, height, mode, step, chroma, motion, size, kind, chroma_kind, triples })
  }

  fn chroma(&mut self) -> Read<Chroma> {
    let mode = self.reader.byte(FROM_LUMA as usize)?;
    if mode == FROM_LUMA {
      Ok(Chroma::FromLuma { weights: [self.reader.signed_byte()?, self.reader.signed_byte()?] })
    } else {
      Ok(Chroma::Plain { mode, step: self.reader.signed_byte()? })
    }
  }

  fn triples(&mut self) -> Read<Vec<Triple>> {
    let first = self.reader.at;
    let count = self.reader.field(2, |_| true)?;
    self.read.counts.push((first, count));
    let mut list = vec![];
    for _ in 0..count {
      let (block, place) = (self.reader.byte(255)?, self.reader.field(2, |_| true)? as u16);
      list.push((block, place, self.reader.field(4, |_| true)? as u32 as i32));
    }
    Ok(list)
  }
}
