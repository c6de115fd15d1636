//! Rows of the edges of transforms, by their places in a plane.

use crate::block_rows::{BAD_ANGLE, BAD_AREA, BAD_MODE, BAD_SIZE, Margins, Row, SAMPLINGS, block_sides, format_of};
use crate::calls::{Edges, Numbers, TRANSFORM_HEIGHTS, TRANSFORM_WIDTHS};
use crate::edges as edge;
use crate::intra_rows::modes;

const EDGE: u8 = 9;

const UV_CFL_PRED: u8 = 13;
const ANY_MODE: u8 = 255;

/// The sides of a superblock of luma, at whose multiples tiles begin.
const SUPERBLOCK: usize = 64;

/// A direction of a plane, and what lies where along it: in samples of the plane, but for the cell and the unit.
#[derive(Clone, Copy)]
struct Along {
    visible: usize,
    tile: usize,
    tile_side: usize,
    cell: usize,
    unit: usize,
    /// The transform's first sample in the tile.
    first: usize,
}

/// A side of a block of luma in a plane.
fn plane_side(side: usize, dec: u8) -> usize {
    (side >> dec).max(4)
}

/// A transform of `side` samples in a block of `block` luma samples, in a tile that begins at a superblock. The tile may end anywhere behind
/// the transform's first sample, and the plane with it or behind it.
fn along(pick: &mut Numbers, block: usize, side: usize, dec: u8) -> Along {
    let tile = pick.one_of(&[0, 0, 0, 1]) * SUPERBLOCK >> dec;
    let near = pick.below(SUPERBLOCK.div_ceil(block));
    let far = pick.below(160 / block + 1);
    let cell = pick.one_of(&[0, near, near, near, far]) * (block / 4);
    let unit = pick.below(plane_side(block, dec) / side);
    let first = (cell >> dec) * 4 + unit * side;
    let rest = match pick.below(6) {
        0 => 1 + pick.below(side),
        1 => side,
        2 => side + 1 + pick.below(side),
        _ => side + pick.below(40),
    };
    let tile_side = first + rest;
    Along { visible: tile + tile_side + pick.one_of(&[0, 0, 9]), tile, tile_side, cell, unit, first }
}

/// The transform's place across and down, and its block, size and mode.
#[derive(Clone, Copy)]
struct Place {
    across: Along,
    down: Along,
    block: u8,
    size: u8,
    mode: u8,
    step: i8,
    filter: bool,
    dec: (u8, u8),
    margins: Margins,
    way: u8,
    seed: u32,
}

/// The blocks that have a size of their own in a plane: where columns alone are halved, those that are not higher than wide.
fn blocks_with_chroma(dec: (u8, u8)) -> Vec<u8> {
    let is_flat = |(width, height)| height <= width;
    (0..22).filter(|block| dec.0 == dec.1 || is_flat(block_sides(*block))).collect()
}

/// The sizes of transforms that fit into a block in a plane.
fn sizes_in((width, height): (usize, usize), dec: (u8, u8)) -> Vec<usize> {
    let (width, height) = (plane_side(width, dec.0), plane_side(height, dec.1));
    (0..19).filter(|size| TRANSFORM_WIDTHS[*size] <= width && TRANSFORM_HEIGHTS[*size] <= height).collect()
}

/// A mode and its step: each in turn, then chroma from luma, or any mode.
fn mode_of(pick: &mut Numbers, turn: usize) -> (u8, i8) {
    let modes = modes();
    let (mode, step) = modes[turn % modes.len()];
    match pick.below(10) {
        0 => (ANY_MODE, step),
        1 => (UV_CFL_PRED, 0),
        _ => (mode, step),
    }
}

fn place(pick: &mut Numbers, turn: usize) -> Place {
    let dec = SAMPLINGS[turn / 4 % 3];
    let blocks = blocks_with_chroma(dec);
    let block = blocks[turn / 12 % blocks.len()];
    let (width, height) = block_sides(block);
    let size = pick.one_of(&sizes_in((width, height), dec));
    let across = along(pick, width, TRANSFORM_WIDTHS[size], dec.0);
    let down = along(pick, height, TRANSFORM_HEIGHTS[size], dec.1);
    let (mode, step) = mode_of(pick, turn);
    let (filter, margins, way) = (pick.once_in(2), Margins::pick(pick), pick.one_of(&[0, 0, 0, 1, 2]));
    let seed = pick.below(1 << 31) as u32;
    Place { across, down, block, size: size as u8, mode, step, filter, dec, margins, way, seed }
}

impl Place {
    /// The status of a call on it: modes are tested first, then sizes, then angles, then whether all lies where it has to.
    fn status(&self) -> u8 {
        let turns = match self.mode {
            ANY_MODE => true,
            1..=8 => (-3..=3).contains(&self.step),
            _ => self.step == 0,
        };
        let lies = |it: Along| it.tile + it.tile_side <= it.visible && it.first < it.tile_side;
        match self {
            _ if self.mode > UV_CFL_PRED && self.mode != ANY_MODE => BAD_MODE,
            _ if self.size > 18 || self.block > 21 => BAD_SIZE,
            _ if !turns => BAD_ANGLE,
            _ if !lies(self.across) || !lies(self.down) || !self.is_near() => BAD_AREA,
            _ => 0,
        }
    }

    /// Whether it lies within 65536 units of 4 samples from its block's first.
    fn is_near(&self) -> bool {
        let size = usize::from(self.size);
        let (width, height) = (TRANSFORM_WIDTHS[size] / 4, TRANSFORM_HEIGHTS[size] / 4);
        self.across.unit * width < 65536 && self.down.unit * height < 65536
    }

    fn call(&self, turn: usize) -> Edges {
        let format = format_of(turn).1;
        let (across, down) = (self.across, self.down);
        let mut numbers = Numbers::new(u64::from(self.seed));
        Edges {
            format,
            xdec: self.dec.0,
            ydec: self.dec.1,
            plane: self.margins.round(&mut numbers, across.visible, down.visible, format.depth, self.way),
            tile: (across.tile, down.tile),
            tile_sides: (across.tile_side, down.tile_side),
            block: self.block,
            cell: (across.cell, down.cell),
            size: self.size,
            unit: (across.unit, down.unit),
            mode: (self.mode != ANY_MODE).then_some(self.mode),
            step: self.step,
            filter: self.filter,
        }
    }

    fn record(&self, turn: usize) {
        let call = self.call(turn);
        let (left, corner, above) = match self.status() {
            0 => answer!(&call, call.format, edge),
            _ => (vec![1; turn % 129], 1, vec![1; turn % 67]),
        };
        let (across, down) = (self.across, self.down);
        let row = Row::of_kind(EDGE)
            .bytes(&[format_of(turn).0, self.block, self.size, self.mode, self.step as u8])
            .bytes(&[u8::from(self.filter), self.dec.0, self.dec.1])
            .two(across.visible)
            .two(down.visible)
            .two(across.tile)
            .two(down.tile)
            .two(across.tile_side)
            .two(down.tile_side)
            .two(across.first)
            .two(down.first)
            .two(across.cell)
            .two(down.cell)
            .two(across.unit)
            .two(down.unit)
            .bytes(&[left.len() as u8, above.len() as u8])
            .margins(self.margins)
            .bytes(&[self.way])
            .four(self.seed);
        row.answered_shorts(self.status(), &[left, vec![corner], above].concat());
    }
}

/// Every block in every sampling that has it, every mode and step.
pub fn edges(pick: &mut Numbers) {
    for turn in 0..3000 {
        place(pick, turn).record(turn);
    }
}

/// Places of which something is refused.
pub fn refused(pick: &mut Numbers) {
    for turn in 0..240 {
        let mut it = place(pick, turn);
        let fault = pick.below(8);
        if fault == 0 || pick.once_in(6) {
            it.mode = pick.one_of(&[14, 20, 33, 34, 254]);
        }
        if fault == 1 || pick.once_in(6) {
            (it.block, it.size) = pick.one_of(&[(22, it.size), (255, it.size), (it.block, 19), (it.block, 255)]);
        }
        if fault == 2 || pick.once_in(6) {
            it.step = pick.one_of(&[-128, -4, 4, 127]);
        }
        match fault {
            3 => it.across.tile_side = it.across.visible - it.across.tile + 1,
            4 => it.down.tile = it.down.visible,
            5 => it.across.first = it.across.tile_side,
            6 => it.down.first = it.down.tile_side + pick.below(3),
            7 if it.size % 4 != 0 => (it.across.unit, it.down.unit) = (65535, 65535),
            _ => (),
        }
        if it.status() != 0 {
            it.record(turn);
        }
    }
}
