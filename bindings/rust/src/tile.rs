//! Edges and predictions in a tile that is a region of its plane, so that threads can work on tiles
//! of one plane.

use crate::{
    BlockRoom, EdgeBlock, EdgePlane, Error, Region, RegionMut, predict_in_plane_8,
    predict_in_plane_16,
};

/// A transform block and what its tile has around it, as a plane of its own: the row above, the
/// column to the left, and to the right and below as many more samples as an edge may have.
pub(crate) struct Window {
    /// The window as a plane, all of it in the tile of the transform.
    pub plane: EdgePlane,
    /// The transform in the window.
    pub block: EdgeBlock,
    // The position of the window in the tile.
    at: (usize, usize),
    // The columns and rows of the transform.
    sides: (usize, usize),
    columns: usize,
    rows: usize,
}

impl Window {
    /// The window of a transform in a tile; `region` is how many columns and rows the tile's region
    /// has.
    ///
    /// # Errors
    ///
    /// `BadArea`: the tile doesn't lie in the plane, the transform doesn't begin in the tile, or
    /// the region doesn't have all of one of them.
    pub fn new(
        region: (usize, usize),
        plane: &EdgePlane,
        block: &EdgeBlock,
    ) -> Result<Window, Error> {
        let sides = (block.tx_size.width(), block.tx_size.height());
        let lies = holds(plane.width, plane.tile_x, plane.tile_width)
            && holds(plane.height, plane.tile_y, plane.tile_height)
            && block.x < plane.tile_width
            && block.y < plane.tile_height
            && holds(region.0, block.x, sides.0.max(plane.tile_width - block.x))
            && holds(region.1, block.y, sides.1.max(plane.tile_height - block.y));
        if !lies {
            return Err(Error::BadArea);
        }
        let (left, above) = (usize::from(block.x > 0), usize::from(block.y > 0));
        let at = (block.x - left, block.y - above);
        let more = sides.0.min(sides.1);
        let (columns, rows) = (left + sides.0 + more, above + sides.1 + more);
        let plane = EdgePlane {
            stride: columns,
            x: 0,
            y: 0,
            width: columns.min(plane.width - plane.tile_x - at.0),
            height: rows.min(plane.height - plane.tile_y - at.1),
            tile_x: 0,
            tile_y: 0,
            tile_width: columns.min(plane.tile_width - at.0),
            tile_height: rows.min(plane.tile_height - at.1),
            ..*plane
        };
        Ok(Window {
            plane,
            block: EdgeBlock {
                x: left,
                y: above,
                ..*block
            },
            at,
            sides,
            columns,
            rows,
        })
    }

    /// The samples of the window. Those of the edge are loaded.
    pub fn load<'a, T: Copy + Default>(
        &self,
        tile: &Region<'_, T>,
        room: &'a mut BlockRoom<T>,
    ) -> &'a mut [T] {
        let samples = room.of(self.columns * self.rows);
        let (x, y) = self.at;
        if let (true, Some(row)) = (self.block.y > 0, tile.row(y)) {
            let count = self.columns.min(row.len() - x);
            samples[..count].copy_from_slice(&row[x..x + count]);
        }
        if self.block.x > 0 {
            let rows = (y..tile.height()).filter_map(|y| tile.row(y));
            for (row, samples) in rows.zip(samples.chunks_exact_mut(self.columns)) {
                samples[0] = row[x];
            }
        }
        samples
    }

    /// Writes the transform of the window to the tile.
    fn store<T: Copy + Default>(
        &self,
        tile: &mut RegionMut<'_, T>,
        samples: &[T],
    ) -> Result<(), Error> {
        let first = self.block.y * self.columns + self.block.x;
        let at = (self.at.0 + self.block.x, self.at.1 + self.block.y);
        tile.put(at, self.sides, samples, first, self.columns)
    }
}

// Whether `all` columns or rows have `count` from number `from` on.
fn holds(all: usize, from: usize, count: usize) -> bool {
    matches!(from.checked_add(count), Some(end) if end <= all)
}

macro_rules! tile_calls {
    ($sample:ident, $predict_in_plane:ident, $predict_in_tile:ident, #[doc = $like:literal]) => {
        #[doc = $like]
        /// in a tile that is a region, whose first sample is the tile's. The region must have all
        /// columns and rows of the tile and of the transform. The call reads only the samples
        /// around the transform that its edge needs, and writes only those of the transform. The
        /// `stride`, `x` and `y` of `plane` are not read.
        ///
        /// # Errors
        ///
        /// `BadArea`, then those of that call. The samples are then unchanged.
        pub fn $predict_in_tile(
            tile: &mut RegionMut<'_, $sample>,
            room: &mut BlockRoom<$sample>,
            plane: &EdgePlane,
            block: &EdgeBlock,
            smooth_neighbour: bool,
            ac: &[i16],
            alpha: i16,
        ) -> Result<(), Error> {
            let window = Window::new((tile.width(), tile.height()), plane, block)?;
            let samples = window.load(&tile.as_region(), room);
            $predict_in_plane(
                samples,
                &window.plane,
                &window.block,
                smooth_neighbour,
                ac,
                alpha,
            )?;
            window.store(tile, samples)
        }
    };
}

tile_calls!(
    u8,
    predict_in_plane_8,
    predict_in_tile_8,
    /// [`predict_in_plane_8`](crate::predict_in_plane_8)
);
tile_calls!(
    u16,
    predict_in_plane_16,
    predict_in_tile_16,
    /// [`predict_in_plane_16`](crate::predict_in_plane_16)
);
