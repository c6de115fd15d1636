//! Rows of luma's differences from its mean, by which chroma is predicted.

use crate::block_rows::{BAD_PAD, BAD_SAMPLING, BAD_SIZE, Margins, Row, SAMPLINGS, block_sides, format_of};
use crate::calls::{Luma, Numbers};
use crate::luma as differences;

const LUMA: u8 = 10;

#[derive(Clone, Copy)]
struct Block {
    /// The number of the size of the block of chroma.
    number: u8,
    dec: (u8, u8),
    pads: (u8, u8),
    margins: Margins,
    way: u8,
    seed: u32,
}

impl Block {
    /// The status of a call on it: sizes are tested first, then samplings, then pads.
    fn status(&self) -> u8 {
        let (width, height) = block_sides(self.number);
        let pads = (usize::from(self.pads.0), usize::from(self.pads.1));
        match self {
            _ if width == 0 || width > 32 || height > 32 => BAD_SIZE,
            _ if !SAMPLINGS.contains(&self.dec) => BAD_SAMPLING,
            _ if pads.0 >= width / 4 || pads.1 >= height / 4 => BAD_PAD,
            _ => 0,
        }
    }

    fn values(&self, turn: usize) -> Vec<u16> {
        let (width, height) = block_sides(self.number);
        let values = vec![77; width * height + 4];
        if self.status() != 0 {
            return values.iter().map(|it| *it as u16).collect();
        }
        let format = format_of(turn).1;
        let (columns, rows) = (width << self.dec.0, height << self.dec.1);
        let luma = self.margins.round(&mut Numbers::new(u64::from(self.seed)), columns, rows, format.depth, self.way);
        let (pads, (xdec, ydec)) = ((usize::from(self.pads.0), usize::from(self.pads.1)), self.dec);
        let call = Luma { format, xdec, ydec, block: self.number, pads, luma, differences: values };
        answer!(&call, format, differences)
    }

    fn record(&self, turn: usize) {
        let fields = [format_of(turn).0, self.number, self.dec.0, self.dec.1, self.pads.0, self.pads.1];
        let row = Row::of_kind(LUMA).bytes(&fields).margins(self.margins).bytes(&[self.way]).four(self.seed);
        row.answered_shorts(self.status(), &self.values(turn));
    }
}

/// Each block with sides up to 32 in each sampling.
fn block(pick: &mut Numbers, turn: usize) -> Block {
    let is_small = |(width, height): (usize, usize)| width <= 32 && height <= 32;
    let numbers: Vec<u8> = (0..22).filter(|it| is_small(block_sides(*it))).collect();
    let number = numbers[turn / 12 % numbers.len()];
    let (width, height) = block_sides(number);
    let pads = (pick.below(width / 4) as u8, pick.below(height / 4) as u8);
    let pads = pick.one_of(&[(0, 0), pads, pads]);
    let (margins, way) = (Margins::pick(pick), pick.one_of(&[0, 0, 0, 1, 2]));
    Block { number, dec: SAMPLINGS[turn / 4 % 3], pads, margins, way, seed: pick.below(1 << 31) as u32 }
}

pub fn luma(pick: &mut Numbers) {
    for turn in 0..1008 {
        block(pick, turn).record(turn);
    }
}

/// Blocks whose size, sampling or pads are refused.
pub fn refused(pick: &mut Numbers) {
    for turn in 0..168 {
        let mut it = block(pick, turn);
        let faults = 1 + pick.below(7);
        if faults & 1 > 0 {
            it.number = pick.one_of(&[10, 11, 12, 13, 14, 15, 20, 21, 22, 255]);
        }
        if faults & 2 > 0 {
            it.dec = pick.one_of(&[(0, 1), (2, 0), (1, 2), (255, 255)]);
        }
        if faults & 4 > 0 {
            let (width, height) = block_sides(it.number);
            it.pads = pick.one_of(&[((width / 4) as u8, 0), (0, (height / 4) as u8), (255, 255)]);
        }
        it.record(turn);
    }
}
