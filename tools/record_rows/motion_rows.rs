//! Rows of prediction from references: puts, prepared blocks, averages.

use crate::block_rows::{
    BAD_FRACTION, BAD_MODE, BAD_SIZE, Margins, Row, Signed, format_of, samples, signed_shorts,
};
use crate::calls::{Average, Format, Motion, Numbers, Prepare, Put, Rectangle};
use crate::{average, prepare, put};

const PUT: u8 = 4;
const PREPARE: u8 = 5;
const AVERAGE: u8 = 6;

/// How many columns and rows more than a block has are read: 3 before it, and 4 behind.
const BEFORE: usize = 3;
const ROUND: usize = 7;

#[derive(Clone, Copy)]
struct Block {
    width: u8,
    height: u8,
    across: u8,
    down: u8,
    filters: (u8, u8),
    way: u8,
    seed: u32,
}

/// The kinds of fractions, widths and formats one after the other.
fn block(pick: &mut Numbers, turn: usize) -> Block {
    let width = 2 << (turn / 4 % 7);
    let any = 2 + 2 * pick.below(30);
    let height = pick.one_of(&[2, 4, 4, 8, 8, 16, 16, 32, 64, width, width, width, 128, any]);
    let (across, down) = (1 + pick.below(15) as u8, 1 + pick.below(15) as u8);
    let (across, down) = [(0, 0), (across, 0), (0, down), (across, down)][turn / 28 % 4];
    let way = pick.one_of(&[0, 0, 0, 1, 1, 2]);
    let filters = (pick.below(4) as u8, pick.below(4) as u8);
    Block { width: width as u8, height: height as u8, across, down, filters, way, seed: pick.below(1 << 31) as u32 }
}

impl Block {
    fn sides(&self) -> (usize, usize) {
        (usize::from(self.width), usize::from(self.height))
    }

    /// The status of a call on it: sides are tested first, then filters, then fractions.
    fn status(&self) -> u8 {
        let sides = 1..=128;
        match self {
            _ if !sides.contains(&self.width) || !sides.contains(&self.height) => BAD_SIZE,
            _ if self.filters.0 > 3 || self.filters.1 > 3 => BAD_MODE,
            _ if self.across > 15 || self.down > 15 => BAD_FRACTION,
            _ => 0,
        }
    }

    fn row(&self, kind: u8, format: u8) -> Row {
        let fields = [format, self.width, self.height, self.across, self.down, self.filters.0, self.filters.1, self.way];
        Row::of_kind(kind).bytes(&fields).four(self.seed)
    }

    fn motion(&self, numbers: &mut Numbers, format: Format) -> Motion {
        let (width, height) = self.sides();
        let stride = width + ROUND;
        let samples = samples(numbers, stride * (height + ROUND), format.depth, self.way);
        Motion {
            format,
            source: Rectangle { samples, stride, x: BEFORE, y: BEFORE, width, height },
            across: self.across,
            down: self.down,
            filter_across: self.filters.0,
            filter_down: self.filters.1,
        }
    }

    fn put(&self, turn: usize, margins: Margins) {
        let (number, format) = format_of(turn);
        let (width, height) = self.sides();
        let mut numbers = Numbers::new(u64::from(self.seed));
        let motion = self.motion(&mut numbers, format);
        let call = Put { motion, target: margins.round(&mut numbers, width, height, format.depth, 0) };
        let answer = match self.status() {
            0 => answer!(&call, format, put),
            _ => call.target.samples,
        };
        self.row(PUT, number).margins(margins).answered_shorts(self.status(), &answer);
    }

    fn prepare(&self, turn: usize) {
        let (number, format) = format_of(turn);
        let (width, height) = self.sides();
        let motion = self.motion(&mut Numbers::new(u64::from(self.seed)), format);
        let call = Prepare { motion, values: vec![77; width * height + 4] };
        let answer = match self.status() {
            0 => answer!(&call, format, prepare),
            _ => call.values.iter().map(|it| *it as u16).collect(),
        };
        self.row(PREPARE, number).answered_shorts(self.status(), &answer);
    }
}

pub fn puts(pick: &mut Numbers) {
    for turn in 0..6000 {
        let block = block(pick, turn);
        block.put(turn, Margins::pick(pick));
    }
}

pub fn prepares(pick: &mut Numbers) {
    for turn in 0..3000 {
        block(pick, turn).prepare(turn);
    }
}

/// Every width by every choice of filters that have outer weights (the sharp one's) and of others, along rows, down columns or both.
pub fn every_width(pick: &mut Numbers) {
    for turn in 0..2 * 4 * 7 * 3 * 4 * 2 {
        let others = [pick.one_of(&[0, 1, 3]), pick.one_of(&[0, 1, 3])];
        let (width, sharp, moved) = (2 << (turn / 4 % 7), turn / 28 % 4, turn / 112 % 3);
        let filter = |at: usize| if sharp >> at & 1 == 1 { 2 } else { others[at] };
        let heights = if turn / 336 % 2 == 0 { [8, 8, 8] } else { [6, 16, 20] };
        let fraction = |pick: &mut Numbers, is_moved: bool| if is_moved { 1 + pick.below(15) as u8 } else { 0 };
        let it = Block {
            width: width as u8,
            height: pick.one_of(&heights),
            across: fraction(pick, moved != 1),
            down: fraction(pick, moved != 0),
            filters: (filter(0), filter(1)),
            way: pick.one_of(&[0, 0, 1]),
            seed: pick.below(1 << 31) as u32,
        };
        if turn < 672 { it.put(turn, Margins::pick(pick)) } else { it.prepare(turn) }
    }
}

/// Every pair of filters with every fraction along rows or down columns or both, at short and long sides.
pub fn every_filter(pick: &mut Numbers) {
    for turn in 0..4 * 16 * 15 {
        let (filters, fraction) = (turn / 4 % 16, 1 + turn / 64);
        let other = pick.below(16) as u8;
        let (across, down) = pick.one_of(&[(fraction as u8, other), (other, fraction as u8)]);
        let sides = (pick.one_of(&[2, 4, 8, 16, 32]), pick.one_of(&[2, 4, 6, 8, 16, 24]));
        let filters = (filters as u8 / 4, filters as u8 % 4);
        let it = Block { width: sides.0, height: sides.1, across, down, filters, way: pick.below(2) as u8, seed: pick.below(1 << 31) as u32 };
        if turn % 8 < 4 { it.put(turn, Margins::pick(pick)) } else { it.prepare(turn) }
    }
}

/// Blocks of which a side, a filter, a fraction or several of them are none.
pub fn refused(pick: &mut Numbers) {
    for turn in 0..240 {
        let mut it = Block { height: 8, way: 0, ..block(pick, turn % 12) };
        let faults = 1 + pick.below(7);
        if faults & 1 > 0 {
            it.across = pick.one_of(&[16, 17, 255]);
        }
        if faults & 2 > 0 {
            it.filters = pick.one_of(&[(4, 0), (0, 4), (255, 255)]);
        }
        if faults & 4 > 0 {
            (it.width, it.height) = pick.one_of(&[(0, 8), (8, 0), (129, 2), (2, 129), (255, 255), (0, 0)]);
        }
        if pick.once_in(4) {
            it.down = 16;
        }
        if turn % 8 < 4 { it.put(turn, Margins::pick(pick)) } else { it.prepare(turn) }
    }
}

/// The average of two prepared blocks; those with sides that no block has are refused.
fn mean(turn: usize, width: u8, height: u8, margins: Margins, drawn: Signed, seed: u32) {
    let (number, format) = format_of(turn);
    let (columns, rows) = (usize::from(width), usize::from(height));
    let mut numbers = Numbers::new(u64::from(seed));
    let first = signed_shorts(&mut numbers, columns * rows, drawn);
    let second = signed_shorts(&mut numbers, columns * rows, drawn);
    let target = margins.round(&mut numbers, columns, rows, format.depth, 0);
    let call = Average { format, first, second, target };
    let status = if (1..=128).contains(&width) && (1..=128).contains(&height) { 0 } else { BAD_SIZE };
    let answer = match status {
        0 => answer!(&call, format, average),
        _ => call.target.samples,
    };
    let row = Row::of_kind(AVERAGE).bytes(&[number, width, height]).margins(margins);
    row.signed(drawn).four(seed).answered_shorts(status, &answer);
}

pub fn averages(pick: &mut Numbers) {
    for turn in 0..1200 {
        let any = 2 + 2 * pick.below(30);
        let (width, height) = (2 << (turn / 4 % 7), pick.one_of(&[2, 4, 8, 16, 32, 64, 128, any]));
        let margins = Margins::pick(pick);
        let drawn = Signed { bits: pick.one_of(&[16, 15, 14, 14, 13, 13]), way: pick.one_of(&[0, 0, 0, 1, 2]), spare: 0 };
        mean(turn, width as u8, height as u8, margins, drawn, pick.below(1 << 31) as u32);
    }
}

pub fn refused_averages(pick: &mut Numbers) {
    for (turn, (width, height)) in [(0, 8), (8, 0), (129, 4), (4, 129), (0, 0), (255, 2), (2, 255), (130, 130)].into_iter().enumerate() {
        mean(turn, width, height, Margins::pick(pick), Signed { bits: 14, way: 0, spare: 0 }, pick.below(1 << 31) as u32);
    }
}
