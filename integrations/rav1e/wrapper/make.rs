//! The plan of a number (docs/COMMANDS.md, `make N`), and its sums.

use super::files;
use crate::partition::BlockSize;
use crate::transform::TxSize;

const SIDE: usize = 512;

/// The plan of a number: 512x512, 10 bits, 4:2:0, with planes in slot 0.
pub fn plan(number: u32) -> Vec<u8> {
  let mut made = Draft { state: number as u64, out: b"RPL1".to_vec() };
  made.pair(SIDE as i32);
  made.pair(SIDE as i32);
  made.out.extend([10, 0, (number % 4) as u8, (number / 4 % 2) as u8]);
  made.out.extend([0, 0, 0, 0, 0, 0, 0, 1]);
  for plane in 0..3 {
    let side = if plane == 0 { SIDE as u32 } else { SIDE as u32 / 2 };
    for y in 0..side {
      for x in 0..side {
        made.pair(((7 * x + 13 * y + 101 * plane + number % 1024) % 1024) as i32);
      }
    }
  }
  for y in (0..SIDE).step_by(64) {
    for x in (0..SIDE).step_by(64) {
      made.node(x, y, 64);
    }
  }
  made.out
}

/// The lines of `sum N`: how many leaves the plan has, and the sum of each plane's samples.
pub fn sums(number: u32) -> Vec<u8> {
  files::sums(&plan(number)).into_bytes()
}

/// What is drawn, and written.
struct Draft {
  state: u64,
  out: Vec<u8>,
}

impl Draft {
  /// A number below `n`.
  fn below(&mut self, n: u64) -> i32 {
    self.state = self.state.wrapping_mul(6_364_136_223_846_793_005).wrapping_add(1_442_695_040_888_963_407);
    ((self.state >> 33) % n) as i32
  }

  fn byte(&mut self, value: i32) {
    self.out.push(value as u8);
  }

  fn pair(&mut self, value: i32) {
    self.out.extend((value as u16).to_le_bytes());
  }

  fn node(&mut self, x: usize, y: usize, side: usize) {
    let mark = self.below(4);
    self.byte(mark);
    let (width, height) = (if mark > 1 { side / 2 } else { side }, if mark % 2 == 1 { side / 2 } else { side });
    for y in (y..y + side).step_by(height) {
      for x in (x..x + side).step_by(width) {
        if mark == 3 && side > 8 {
          self.node(x, y, side / 2);
        } else {
          self.leaf(x, y, width, height);
        }
      }
    }
  }

  fn leaf(&mut self, x: usize, y: usize, width: usize, height: usize) {
    let carries = !(width == 4 && x % 8 == 0 || height == 4 && y % 8 == 0);
    match if width.min(height) > 4 { self.below(4) } else { 0 } {
      2 => {
        let mode = 14 + self.below(6);
        self.byte(mode);
        self.motion();
      }
      3 => {
        let mode = 20 + self.below(14);
        self.byte(mode);
        self.motion();
        self.motion();
      }
      _ => self.intra(carries, width.max(height) <= 32),
    }
    self.transforms(carries, BlockSize::from_width_and_height(width, height));
  }

  fn intra(&mut self, carries: bool, from_luma: bool) {
    let mode = self.below(13);
    self.byte(mode);
    self.step(mode);
    if !carries {
      return;
    }
    let mode = self.below(if from_luma { 14 } else { 13 });
    self.byte(mode);
    if mode < 13 {
      return self.step(mode);
    }
    for _ in 0..2 {
      let weight = self.below(33) - 16;
      self.byte(weight);
    }
  }

  /// An angle step, of a mode that has a direction.
  fn step(&mut self, mode: i32) {
    let step = if (1..=8).contains(&mode) { self.below(7) - 3 } else { 0 };
    self.byte(step);
  }

  fn motion(&mut self) {
    let reference = 1 + self.below(7);
    self.byte(reference);
    for _ in 0..2 {
      let component = self.below(257) - 128;
      self.pair(component);
    }
  }

  fn transforms(&mut self, carries: bool, size: BlockSize) {
    let luma = if self.below(2) == 0 { size.tx_size() } else { TxSize::TX_4X4 };
    self.byte(luma as i32);
    self.kind(luma);
    if carries {
      self.kind(size.largest_chroma_tx_size(1, 1));
    }
    for _ in 0..if carries { 3 } else { 1 } {
      let count = self.below(4);
      self.pair(count);
      for place in 0..count {
        let value = self.below(401) - 200;
        self.byte(0);
        self.pair(place);
        self.out.extend(value.to_le_bytes());
      }
    }
  }

  fn kind(&mut self, size: TxSize) {
    let kind = match size.width().max(size.height()) {
      64 => 0,
      32 => 9 * self.below(2),
      _ => self.below(16),
    };
    self.byte(kind);
  }
}
