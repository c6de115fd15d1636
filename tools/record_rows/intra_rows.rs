//! Rows of intra prediction from sides that are drawn, chroma from luma among it.

use crate::block_rows::{
    BAD_ANGLE, BAD_MODE, Margins, Row, Signed, TOO_SHORT, format_of, samples, signed_shorts,
};
use crate::calls::{Intra, Numbers, TRANSFORM_HEIGHTS, TRANSFORM_WIDTHS, places};
use crate::intra;

const INTRA: u8 = 7;
const FROM_LUMA: u8 = 8;

const DC_PRED: u8 = 0;
const PAETH_PRED: u8 = 12;
const UV_CFL_PRED: u8 = 13;

#[derive(Clone, Copy)]
struct Block {
    mode: u8,
    size: u8,
    step: i8,
    /// Which sides of the block lie in the tile: 0 none, 1 the left one, 2 the one above, 3 both.
    sides: u8,
    /// 0 without the edge filter, 1 with it, 2 with it beside a smooth neighbour.
    filter: u8,
    visible: (usize, usize),
    left: usize,
    above: usize,
    margins: Margins,
    way: u8,
    /// Of chroma from luma the weight, and how differences are drawn.
    luma: Option<(i8, Signed)>,
    seed: u32,
}

impl Block {
    fn rectangle(&self) -> (usize, usize) {
        (TRANSFORM_WIDTHS[usize::from(self.size)], TRANSFORM_HEIGHTS[usize::from(self.size)])
    }

    /// The status of a call on it: modes are tested first, then angles, then how long the sides are. Chroma from luma reads no mode.
    fn status(&self) -> u8 {
        let (width, height) = self.rectangle();
        let turns = self.step == 0 || ((1..=8).contains(&self.mode) && (-3..=3).contains(&self.step));
        if self.luma.is_none() && self.mode > PAETH_PRED {
            return BAD_MODE;
        }
        if !turns || (self.luma.is_some() && self.step != 0) {
            return BAD_ANGLE;
        }
        let (above, left) = places(self.called_mode(), self.step, self.sides, width, height);
        if self.left < left || self.above < above { TOO_SHORT } else { 0 }
    }

    fn called_mode(&self) -> u8 {
        if self.luma.is_some() { UV_CFL_PRED } else { self.mode }
    }

    fn call(&self, turn: usize) -> Intra {
        let format = format_of(turn).1;
        let (width, height) = self.rectangle();
        let mut numbers = Numbers::new(u64::from(self.seed));
        let differences = match self.luma {
            Some((_, drawn)) => signed_shorts(&mut numbers, width * height, drawn),
            None => Vec::new(),
        };
        let mut side = |count| samples(&mut numbers, count, format.depth, self.way);
        let (left, corner, above) = (side(self.left), side(1)[0], side(self.above));
        Intra {
            format,
            mode: self.called_mode(),
            size: self.size,
            sides: self.sides,
            step: self.step,
            alpha: self.luma.map_or(0, |(alpha, _)| i16::from(alpha)),
            filter: self.filter,
            visible_columns: self.visible.0,
            visible_rows: self.visible.1,
            left,
            corner,
            above,
            differences,
            target: self.margins.round(&mut numbers, width, height, format.depth, 0),
        }
    }

    fn record(&self, turn: usize) {
        let call = self.call(turn);
        let answer = match self.status() {
            0 => answer!(&call, call.format, intra),
            _ => call.target.samples,
        };
        let filter = [u8::from(self.filter > 0), u8::from(self.filter > 1)];
        let row = Row::of_kind(if self.luma.is_some() { FROM_LUMA } else { INTRA })
            .bytes(&[format_of(turn).0, self.mode, self.size, self.step as u8, self.sides % 2, self.sides / 2])
            .bytes(&filter)
            .two(self.visible.0)
            .two(self.visible.1)
            .bytes(&[self.left as u8, self.above as u8])
            .margins(self.margins)
            .bytes(&[self.way])
            .four(self.seed);
        let row = match self.luma {
            Some((alpha, drawn)) => row.bytes(&[alpha as u8]).signed(drawn),
            None => row,
        };
        row.answered_shorts(self.status(), &answer);
    }
}

/// How many of `side` columns or rows are visible: often all of them, and then perhaps more.
fn visible(pick: &mut Numbers, side: usize) -> usize {
    match pick.below(3) {
        0 => 1 + pick.below(side),
        1 => side,
        _ => side + pick.below(40),
    }
}

/// The modes with their steps, but for chroma from luma.
pub fn modes() -> Vec<(u8, i8)> {
    let turned = (1..=8).flat_map(|mode| (-3..=3).map(move |step| (mode, step)));
    [(DC_PRED, 0)].into_iter().chain((9..=PAETH_PRED).map(|mode| (mode, 0))).chain(turned).collect()
}

fn block(pick: &mut Numbers, (mode, step): (u8, i8), size: usize, from_luma: bool) -> Block {
    let (width, height) = (TRANSFORM_WIDTHS[size], TRANSFORM_HEIGHTS[size]);
    let sides = pick.below(4) as u8;
    let read = places(if from_luma { UV_CFL_PRED } else { mode }, step, sides, width, height);
    let mut side = |read| if pick.below(3) == 0 { width + height } else { read };
    let (above, left) = (side(read.0), side(read.1));
    let filter = pick.below(3) as u8;
    let visible = (visible(pick, width), visible(pick, height));
    let (margins, way) = (Margins::pick(pick), pick.one_of(&[0, 0, 0, 1, 2]));
    let alpha = pick.below(33) as i8 - 16;
    let drawn = Signed { bits: pick.one_of(&[16, 12, 11, 11]), way: pick.one_of(&[0, 0, 1]), spare: 0 };
    let luma = from_luma.then_some((alpha, drawn));
    Block { mode, size: size as u8, step, sides, filter, visible, left, above, margins, way, luma, seed: pick.below(1 << 31) as u32 }
}

/// Modes with their steps in all sizes and formats.
pub fn intra_modes(pick: &mut Numbers) {
    let modes = modes();
    for turn in 0..4000 {
        block(pick, modes[(turn / 76 + turn / 4) % modes.len()], turn / 4 % 19, false).record(turn);
    }
}

/// Every mode with every step in every size, without the edge filter, with it, and with it beside a smooth neighbour.
pub fn every_mode(pick: &mut Numbers) {
    let modes = modes();
    for turn in 0..3 * 19 * modes.len() {
        let it = block(pick, modes[turn / 57], turn / 3 % 19, false);
        Block { filter: turn as u8 % 3, ..it }.record(turn);
    }
}

/// The sizes of transforms up to 32x32, of which chroma is predicted from luma.
fn sizes_from_luma() -> Vec<usize> {
    (0..19).filter(|size| TRANSFORM_WIDTHS[*size].max(TRANSFORM_HEIGHTS[*size]) <= 32).collect()
}

pub fn from_luma(pick: &mut Numbers) {
    let sizes = sizes_from_luma();
    for turn in 0..1000 {
        block(pick, (DC_PRED, 0), sizes[turn / 4 % sizes.len()], true).record(turn);
    }
}

/// Blocks whose mode, step or sides are refused.
pub fn refused(pick: &mut Numbers) {
    let (modes, sizes) = (modes(), sizes_from_luma());
    for turn in 0..240 {
        let from_luma = turn % 12 > 7;
        let mode = if from_luma { (DC_PRED, 0) } else { pick.one_of(&modes) };
        let mut it = block(pick, mode, sizes[turn % sizes.len()], from_luma);
        let faults = 1 + pick.below(7);
        if faults & 1 > 0 && !from_luma {
            it.mode = pick.one_of(&[13, 14, 33, 34, 255]);
        }
        if faults & 2 > 0 {
            it.step = pick.one_of(&[-128, -4, 1, 4, 127]);
        }
        if faults & 4 > 0 {
            let (left, above) = (it.left.saturating_sub(1), it.above.saturating_sub(1));
            (it.left, it.above) = pick.one_of(&[(0, 0), (left, it.above), (it.left, above)]);
        }
        it.record(turn);
    }
}
