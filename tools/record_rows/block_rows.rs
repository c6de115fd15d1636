//! Rows of calls on blocks: how their numbers are drawn, and how a call and its answer are written.

use crate::BLOCK_SIZES;
use crate::calls::{Format, Numbers, Rectangle};
use std::io::Write;

// The statuses of refused calls.
pub const BAD_SIZE: u8 = 6;
pub const BAD_AREA: u8 = 9;
pub const TOO_SHORT: u8 = 10;
pub const BAD_MODE: u8 = 13;
pub const BAD_ANGLE: u8 = 14;
pub const BAD_FRACTION: u8 = 15;
pub const BAD_SAMPLING: u8 = 16;
pub const BAD_PAD: u8 = 17;

// ---- drawn numbers

/// A number of so many bits: the upper ones of the next.
pub fn bits(numbers: &mut Numbers, count: u8) -> u32 {
    numbers.below(1 << count) as u32
}

/// The number that all are in way 2.
fn same(numbers: &mut Numbers, way: u8, count: u8) -> u32 {
    if way == 2 { bits(numbers, count) } else { 0 }
}

fn in_way(numbers: &mut Numbers, way: u8, count: u8, same: u32) -> u32 {
    match way {
        0 => bits(numbers, count),
        1 => bits(numbers, 1) * ((1 << count) - 1),
        _ => same,
    }
}

/// So many samples of a depth.
pub fn samples(numbers: &mut Numbers, count: usize, depth: u32, way: u8) -> Vec<u16> {
    let same = same(numbers, way, depth as u8);
    (0..count).map(|_| in_way(numbers, way, depth as u8, same) as u16).collect()
}

/// How signed numbers are drawn.
#[derive(Clone, Copy)]
pub struct Signed {
    pub bits: u8,
    pub way: u8,
    pub spare: u8,
}

pub fn signed(numbers: &mut Numbers, count: usize, drawn: Signed) -> Vec<i32> {
    let Signed { bits: count_of_bits, way, spare } = drawn;
    let same = same(numbers, way, count_of_bits);
    let mut one = || match spare != 0 && bits(numbers, spare) != 0 {
        true => 0,
        false => in_way(numbers, way, count_of_bits, same) as i32 - (1 << (count_of_bits - 1)),
    };
    (0..count).map(|_| one()).collect()
}

/// The same as numbers of 16 bits.
pub fn signed_shorts(numbers: &mut Numbers, count: usize, drawn: Signed) -> Vec<i16> {
    signed(numbers, count, drawn).into_iter().map(|it| it as i16).collect()
}

/// How many columns and rows stand before a rectangle, and how many columns behind it.
#[derive(Clone, Copy)]
pub struct Margins {
    pub x: u8,
    pub y: u8,
    pub behind: u8,
}

impl Margins {
    pub fn pick(pick: &mut Numbers) -> Margins {
        Margins { x: pick.below(9) as u8, y: pick.below(4) as u8, behind: pick.one_of(&[0, 1, 7, 16]) }
    }

    /// The rectangle with these margins, in samples that are drawn.
    pub fn round(self, numbers: &mut Numbers, width: usize, height: usize, depth: u32, way: u8) -> Rectangle {
        let (x, y) = (usize::from(self.x), usize::from(self.y));
        let stride = x + width + usize::from(self.behind);
        Rectangle { samples: samples(numbers, stride * (y + height), depth, way), stride, x, y, width, height }
    }
}

/// The format of a turn, and its number: all four, one after the other.
pub fn format_of(turn: usize) -> (u8, Format) {
    let number = turn % 4;
    (number as u8, Format { wide: number > 0, depth: [8, 8, 10, 12][number] })
}

/// How many columns and rows a block has whose size has this number, or none where no size has it.
pub fn block_sides(number: u8) -> (usize, usize) {
    BLOCK_SIZES.get(usize::from(number)).map_or((0, 0), |size| (size.width(), size.height()))
}

/// Whether chroma has half of luma's columns, and of its rows.
pub const SAMPLINGS: [(u8, u8); 3] = [(0, 0), (1, 0), (1, 1)];

// ---- rows

/// A row in the making: the number of its kind, and its fields so far.
pub struct Row {
    kind: u8,
    fields: Vec<u8>,
}

impl Row {
    pub fn of_kind(kind: u8) -> Row {
        Row { kind, fields: Vec::new() }
    }

    pub fn bytes(mut self, bytes: &[u8]) -> Row {
        self.fields.extend_from_slice(bytes);
        self
    }

    pub fn two(self, number: usize) -> Row {
        self.bytes(&(number as u16).to_le_bytes())
    }

    pub fn four(self, number: u32) -> Row {
        self.bytes(&number.to_le_bytes())
    }

    pub fn signed(self, drawn: Signed) -> Row {
        self.bytes(&[drawn.bits, drawn.way, drawn.spare])
    }

    pub fn margins(self, margins: Margins) -> Row {
        self.bytes(&[margins.x, margins.y, margins.behind])
    }

    /// Writes it with its answer: a status, and the bytes that were written.
    pub fn answered(self, status: u8, bytes: &[u8]) {
        let kind = self.kind;
        let row = self.bytes(&[status, 0]).four(bytes.len() as u32).four(crc(bytes)).fields;
        let mut out = std::io::stdout().lock();
        out.write_all(&[kind]).unwrap();
        out.write_all(&(row.len() as u32).to_le_bytes()).unwrap();
        out.write_all(&row).unwrap();
    }

    /// The same, where samples or values of 16 bits were written.
    pub fn answered_shorts(self, status: u8, numbers: &[u16]) {
        let bytes: Vec<u8> = numbers.iter().flat_map(|it| it.to_le_bytes()).collect();
        self.answered(status, &bytes)
    }
}

/// CRC-32, as of zip files.
fn crc(bytes: &[u8]) -> u32 {
    let shifted = |sum: u32| if sum & 1 == 1 { sum >> 1 ^ 0xEDB8_8320 } else { sum >> 1 };
    !bytes.iter().fold(!0, |sum, byte| (0..8).fold(sum ^ u32::from(*byte), |sum, _| shifted(sum)))
}
