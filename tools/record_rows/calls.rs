//! What calls on blocks are given, and the numbers that draw them. A seed alone decides the numbers.
//!
//! Numbers of sizes, types, modes and filters are those of rav1e's enums, in their order. Samples are held as `u16`, whatever type a call takes.
//! What a call may write stands in a buffer that is longer than that, so that all of the buffer shows what else was written.

/// Numbers that their seed alone decides: splitmix64.
pub struct Numbers(u64);

impl Numbers {
    pub fn new(seed: u64) -> Numbers {
        Numbers(seed)
    }

    fn next(&mut self) -> u64 {
        self.0 = self.0.wrapping_add(0x9e37_79b9_7f4a_7c15);
        let z = (self.0 ^ (self.0 >> 30)).wrapping_mul(0xbf58_476d_1ce4_e5b9);
        let z = (z ^ (z >> 27)).wrapping_mul(0x94d0_49bb_1331_11eb);
        z ^ (z >> 31)
    }

    /// One of 0 to `count` - 1.
    pub fn below(&mut self, count: usize) -> usize {
        ((self.next() >> 32) * count as u64 >> 32) as usize
    }

    /// One of `least` to `greatest`.
    pub fn between(&mut self, least: i32, greatest: i32) -> i32 {
        least + self.below((greatest - least + 1) as usize) as i32
    }

    /// Yes, once in so many times.
    pub fn once_in(&mut self, count: usize) -> bool {
        self.below(count) == 0
    }

    /// One of these.
    pub fn one_of<T: Copy>(&mut self, choices: &[T]) -> T {
        choices[self.below(choices.len())]
    }
}

/// The type of samples, and their depth in bits.
#[derive(Clone, Copy, Debug, PartialEq, Eq)]
pub struct Format {
    /// Samples are `u16`, and coefficients `i32`; else `u8` and `i16`.
    pub wide: bool,
    pub depth: u32,
}

impl Format {
    /// The greatest sample.
    pub fn greatest(self) -> u16 {
        (1 << self.depth) - 1
    }
}

/// Samples whose rows stand `stride` apart, and a rectangle of them.
#[derive(Clone, Debug, PartialEq, Eq)]
pub struct Rectangle {
    pub samples: Vec<u16>,
    pub stride: usize,
    pub x: usize,
    pub y: usize,
    pub width: usize,
    pub height: usize,
}

/// Coefficients of a block, and the samples that their transform is added to. The coefficient of row r and column c stands at
/// `c * min(height, 32) + r`.
#[derive(Clone, Debug, PartialEq, Eq)]
pub struct Transform {
    pub format: Format,
    pub size: u8,
    pub kind: u8,
    pub coefficients: Vec<i32>,
    pub target: Rectangle,
}

// Sides by the numbers of sizes.
pub const TRANSFORM_WIDTHS: [usize; 19] = [
    4, 8, 16, 32, 64, 4, 8, 8, 16, 16, 32, 32, 64, 4, 16, 8, 32, 16, 64,
];
pub const TRANSFORM_HEIGHTS: [usize; 19] = [
    4, 8, 16, 32, 64, 8, 4, 16, 8, 32, 16, 64, 32, 16, 4, 32, 8, 64, 16,
];

const DCT_DCT: u8 = 0;
const IDTX: u8 = 9;
const WHT_WHT: u8 = 16;

/// How many coefficients a transform has.
pub fn coded(size: u8) -> usize {
    let size = usize::from(size);
    TRANSFORM_WIDTHS[size].min(32) * TRANSFORM_HEIGHTS[size].min(32)
}

/// Whether AV1 has a transform of this type and size.
pub fn has_type(size: usize, kind: u8) -> bool {
    let greatest = TRANSFORM_WIDTHS[size].max(TRANSFORM_HEIGHTS[size]);
    match kind {
        DCT_DCT => true,
        IDTX => greatest <= 32,
        WHT_WHT => size == 0,
        _ => greatest <= 16,
    }
}

/// A block of a reference, moved by 16ths of a sample. Beside it stand 3 columns and rows before, and 4 behind.
#[derive(Clone, Debug, PartialEq, Eq)]
pub struct Motion {
    pub format: Format,
    pub source: Rectangle,
    pub across: u8,
    pub down: u8,
    pub filter_across: u8,
    pub filter_down: u8,
}

/// A block that is predicted from one reference.
#[derive(Clone, Debug, PartialEq, Eq)]
pub struct Put {
    pub motion: Motion,
    pub target: Rectangle,
}

/// A block that is prepared for the average with another: row by row at the front of `values`.
#[derive(Clone, Debug, PartialEq, Eq)]
pub struct Prepare {
    pub motion: Motion,
    pub values: Vec<i16>,
}

/// Two prepared blocks, and where their average goes.
#[derive(Clone, Debug, PartialEq, Eq)]
pub struct Average {
    pub format: Format,
    pub first: Vec<i16>,
    pub second: Vec<i16>,
    pub target: Rectangle,
}

/// A block that is predicted by an intra mode from an edge: the left side runs from the bottom up, the one above from the left.
#[derive(Clone, Debug, PartialEq, Eq)]
pub struct Intra {
    pub format: Format,
    pub mode: u8,
    pub size: u8,
    /// Which sides of the block lie in the tile: 0 none, 1 the left one, 2 the one above, 3 both.
    pub sides: u8,
    /// The step of a directional mode, from -3 to 3, or 0.
    pub step: i8,
    /// The weight of luma in chroma from luma, in eighths, or 0.
    pub alpha: i16,
    /// 0 without the edge filter, 1 with it, 2 with it beside a smooth neighbour.
    pub filter: u8,
    /// How many columns from the block's first one on are visible.
    pub visible_columns: usize,
    /// How many rows are.
    pub visible_rows: usize,
    pub left: Vec<u16>,
    pub corner: u16,
    pub above: Vec<u16>,
    /// For chroma from luma, row by row: luma's differences from its mean, in eighths.
    pub differences: Vec<i16>,
    pub target: Rectangle,
}

const DC_PRED: u8 = 0;
const V_PRED: u8 = 1;
const D67_PRED: u8 = 8;
const PAETH_PRED: u8 = 12;
const UV_CFL_PRED: u8 = 13;
/// The angles of the modes from `V_PRED` to `D67_PRED`, in degrees.
const ANGLES: [i32; 8] = [90, 180, 45, 135, 113, 157, 203, 67];

/// The angle of a directional mode and its step, in degrees.
fn angle(mode: u8, step: i8) -> Option<i32> {
    match mode {
        V_PRED..=D67_PRED => Some(ANGLES[usize::from(mode - V_PRED)] + 3 * i32::from(step)),
        _ => None,
    }
}

/// How many samples above a block, and to its left, a mode reads. At the ends of a tile Paeth prediction does with fewer sides.
pub fn places(mode: u8, step: i8, sides: u8, width: usize, height: usize) -> (usize, usize) {
    match (mode, angle(mode, step)) {
        (_, Some(angle)) => (
            match angle {
                i32::MIN..=89 => width + height,
                90..=179 => width,
                _ => 0,
            },
            match angle {
                i32::MIN..=90 => 0,
                91..=180 => height,
                _ => height + width,
            },
        ),
        (DC_PRED | PAETH_PRED | UV_CFL_PRED, _) => (
            width * usize::from(sides / 2),
            height * usize::from(sides % 2),
        ),
        _ => (width, height),
    }
}

/// Luma over a block of chroma, whose differences from its mean go row by row to the front of `differences`.
#[derive(Clone, Debug, PartialEq, Eq)]
pub struct Luma {
    pub format: Format,
    pub xdec: u8,
    pub ydec: u8,
    /// The size of the block of chroma.
    pub block: u8,
    /// How many units of 4 columns, and of 4 rows, of chroma have no luma of their own.
    pub pads: (usize, usize),
    pub luma: Rectangle,
    pub differences: Vec<i16>,
}

/// A place in a plane, of which the samples round a transform are asked. The rectangle of `plane` is the visible part of the plane.
#[derive(Clone, Debug, PartialEq, Eq)]
pub struct Edges {
    pub format: Format,
    pub xdec: u8,
    pub ydec: u8,
    pub plane: Rectangle,
    /// The first column and row of the tile, counted from the first visible sample.
    pub tile: (usize, usize),
    /// How many columns and rows of the plane the tile has.
    pub tile_sides: (usize, usize),
    /// The block's size in luma.
    pub block: u8,
    /// The column and row of the block in the tile, in cells of 4 by 4 luma samples.
    pub cell: (usize, usize),
    pub size: u8,
    /// The column and row of the transform in the block, in transforms.
    pub unit: (usize, usize),
    /// The mode, where one is named.
    pub mode: Option<u8>,
    pub step: i8,
    /// Whether the sequence has the edge filter.
    pub filter: bool,
}

impl Edges {
    /// The column and row of the transform's first sample in the tile.
    pub fn place(&self) -> (usize, usize) {
        let size = usize::from(self.size);
        (
            (self.cell.0 >> self.xdec) * 4 + self.unit.0 * TRANSFORM_WIDTHS[size],
            (self.cell.1 >> self.ydec) * 4 + self.unit.1 * TRANSFORM_HEIGHTS[size],
        )
    }
}
