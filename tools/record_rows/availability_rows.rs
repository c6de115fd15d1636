//! Rows of what comes before a transform in coding order: what is above right of it, and what is below left.

use crate::block_rows::{Row, block_sides};
use crate::calls::{Numbers, TRANSFORM_HEIGHTS, TRANSFORM_WIDTHS};
use crate::context::{BlockOffset, TileBlockOffset};
use crate::partition::{has_bl, has_tr};
use crate::recon_intra::{has_bottom_left, has_top_right};
use crate::{BLOCK_SIZES, TRANSFORM_SIZES};

const AVAILABILITY: u8 = 11;

#[derive(Clone, Copy)]
struct Place {
    block: usize,
    cell: (u8, u8),
    /// Whether the row above or the one below lies in the frame, and the column on the right or on the left.
    lies: (bool, bool),
    size: usize,
    /// The transform's row and column in its block, in units of 4 samples.
    offset: (u8, u8),
    dec: (u8, u8),
}

impl Place {
    fn record(&self) {
        let (block, size) = (BLOCK_SIZES[self.block], TRANSFORM_SIZES[self.size]);
        let cell = TileBlockOffset(BlockOffset { x: usize::from(self.cell.0), y: usize::from(self.cell.1) });
        let (first, second) = self.lies;
        let (row, column) = (usize::from(self.offset.0), usize::from(self.offset.1));
        let (xdec, ydec) = (usize::from(self.dec.0), usize::from(self.dec.1));
        let answer = [
            has_top_right(block, cell, first, second, size, row, column, xdec, ydec),
            has_bottom_left(block, cell, first, second, size, row, column, xdec, ydec),
            has_tr(cell, block),
            has_bl(cell, block),
        ];
        let fields = [self.block as u8, self.cell.0, self.cell.1, u8::from(first), u8::from(second), self.size as u8];
        let row = Row::of_kind(AVAILABILITY).bytes(&fields).bytes(&[self.offset.0, self.offset.1, self.dec.0, self.dec.1]);
        row.answered(0, &answer.map(u8::from));
    }
}

/// A place for a block among those of its size, in the first two superblocks of 128 samples or anywhere.
fn cell(pick: &mut Numbers, block: usize) -> u8 {
    let cells = block / 4;
    let (near, far) = (pick.below(64 / cells) * cells, pick.below(256));
    pick.one_of(&[near, near, near, far]) as u8
}

/// The transform's place along a side of its block: one of those that tile it, or any.
fn offset(pick: &mut Numbers, block: usize, side: usize, dec: u8) -> u8 {
    let (units, unit) = ((block >> dec).max(4) / 4, side / 4);
    let (inside, any) = (pick.below(units.div_ceil(unit)) * unit, pick.below(64));
    pick.one_of(&[inside, inside, inside, any]) as u8
}

/// Every block with every transform in every sampling, at many places.
pub fn availability(pick: &mut Numbers) {
    for turn in 0..22 * 19 * 4 * 2 {
        let (block, size) = (turn % 22, turn / 22 % 19);
        let dec = ((turn / 418 % 2) as u8, (turn / 836 % 2) as u8);
        let fits = pick.below(19);
        let size = pick.one_of(&[size, fits]);
        let (width, height) = block_sides(block as u8);
        let place = Place {
            block,
            cell: (cell(pick, width), cell(pick, height)),
            lies: pick.one_of(&[(true, true), (true, true), (true, true), (true, true), (true, false), (false, true), (false, false)]),
            size,
            offset: (offset(pick, height, TRANSFORM_HEIGHTS[size], dec.1), offset(pick, width, TRANSFORM_WIDTHS[size], dec.0)),
            dec,
        };
        place.record();
    }
}
