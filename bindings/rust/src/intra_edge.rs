//! The edge of a transform block, from which an intra mode predicts it, prepared in the caller's
//! memory.

use crate::error::told;
use crate::tile::Window;
use crate::{
    BitDepth, BlockRoom, BlockSize, Error, IntraBlock, Place, PredictionMode, Region, TxSize,
    predict_cfl_8, predict_cfl_16, predict_intra_8, predict_intra_16,
};
use std::fmt;
use tilgwaren_sys as sys;

/// How many samples a prepared edge has: 128 to the left, the corner, and 128 above.
pub const EDGE_SAMPLES: usize = sys::EDGE_SAMPLES;

/// A plane in the caller's memory, and a tile of it.
#[derive(Clone, Copy, Debug, Default, PartialEq, Eq)]
pub struct EdgePlane {
    /// How many samples apart its rows are.
    pub stride: usize,
    /// The column of its first visible sample.
    pub x: usize,
    /// The row of its first visible sample.
    pub y: usize,
    /// How many visible columns it has.
    pub width: usize,
    /// How many visible rows it has.
    pub height: usize,
    /// The first column of the tile, counted from the first visible one.
    pub tile_x: usize,
    /// The first row of the tile, counted from the first visible one.
    pub tile_y: usize,
    /// How many columns of the plane the tile has.
    pub tile_width: usize,
    /// How many rows of the plane the tile has.
    pub tile_height: usize,
    /// Whether it has half of luma's columns.
    pub halved_columns: bool,
    /// Whether it has half of luma's rows.
    pub halved_rows: bool,
}

impl EdgePlane {
    /// A plane of luma without padding that is one tile. Its rows are `width` samples apart.
    #[must_use]
    pub fn of_luma(width: usize, height: usize) -> EdgePlane {
        EdgePlane {
            stride: width,
            width,
            height,
            tile_width: width,
            tile_height: height,
            ..EdgePlane::default()
        }
    }
}

impl From<&EdgePlane> for sys::EdgePlane {
    fn from(of: &EdgePlane) -> sys::EdgePlane {
        sys::EdgePlane {
            stride: of.stride,
            x: of.x,
            y: of.y,
            width: of.width,
            height: of.height,
            tile_x: of.tile_x,
            tile_y: of.tile_y,
            tile_width: of.tile_width,
            tile_height: of.tile_height,
            halved_columns: of.halved_columns.into(),
            halved_rows: of.halved_rows.into(),
        }
    }
}

/// A transform block whose edge is to be prepared.
#[derive(Clone, Copy, Debug, Default, PartialEq, Eq)]
pub struct EdgeBlock {
    /// The column of its first sample in the tile.
    pub x: usize,
    /// The row of its first sample in the tile.
    pub y: usize,
    /// The column of its block in the tile, counted in cells of 4 by 4 luma samples.
    pub cell_x: usize,
    /// The row of its block in the tile, counted in cells.
    pub cell_y: usize,
    /// Its column in its block, counted in transforms.
    pub unit_x: usize,
    /// Its row in its block, counted in transforms.
    pub unit_y: usize,
    /// The block's size in luma.
    pub block_size: BlockSize,
    /// The transform's size.
    pub tx_size: TxSize,
    /// The mode that will predict it, up to [`PredictionMode::Cfl`]. `None` stands for every mode:
    /// the whole edge is prepared.
    pub mode: Option<PredictionMode>,
    /// How many steps of 3 degrees a directional mode turns, from -3 to 3; 0 in other modes. It is
    /// not read without a mode.
    pub angle_step: i8,
    /// The depth of its samples.
    pub bit_depth: BitDepth,
    /// Whether the edge filter is on.
    pub edge_filter: bool,
}

impl EdgeBlock {
    /// The only transform of a block of luma, at column `x` of row `y` of its tile, at depth 8,
    /// without the edge filter and for every mode. Change the fields that differ.
    #[must_use]
    pub fn of_luma(x: usize, y: usize, block_size: BlockSize, tx_size: TxSize) -> EdgeBlock {
        EdgeBlock {
            x,
            y,
            cell_x: x / 4,
            cell_y: y / 4,
            block_size,
            tx_size,
            ..EdgeBlock::default()
        }
    }
}

impl From<&EdgeBlock> for sys::EdgeBlock {
    fn from(of: &EdgeBlock) -> sys::EdgeBlock {
        sys::EdgeBlock {
            x: of.x,
            y: of.y,
            cell_x: of.cell_x,
            cell_y: of.cell_y,
            unit_x: of.unit_x,
            unit_y: of.unit_y,
            block_size: of.block_size.into(),
            tx_size: of.tx_size.into(),
            mode: of.mode.map_or(sys::ANY_MODE, Into::into),
            angle_step: of.angle_step,
            bit_depth: of.bit_depth.into(),
            edge_filter: of.edge_filter.into(),
        }
    }
}

macro_rules! edge_calls {
    ($sample:ident, $intra_edge:ident) => {
        /// Prepares the edge of a transform block for the mode that will predict it. `samples` are
        /// those of the plane.
        ///
        /// The first 128 samples of `edge` become the left edge, from the bottom up; sample 128 is
        /// the corner; the edge above follows it. What follows the first 257 samples is unchanged.
        ///
        /// # Errors
        ///
        /// `RoomTooSmall`, then `BadMode`, then `BadAngle`, then `BadDepth`, then `BadArea`. The
        /// edge is then unchanged.
        pub fn $intra_edge(
            edge: &mut [$sample],
            samples: &[$sample],
            plane: &EdgePlane,
            block: &EdgeBlock,
        ) -> Result<(), Error> {
            // SAFETY: pointers and lengths come from borrowed slices, `edge` borrowed mutably.
            told(unsafe {
                sys::$intra_edge(
                    edge.as_mut_ptr(),
                    edge.len(),
                    samples.as_ptr(),
                    samples.len(),
                    &plane.into(),
                    &block.into(),
                )
            })
        }
    };
}

edge_calls!(u8, intra_edge_8);
edge_calls!(u16, intra_edge_16);

/// The edge of a transform block, to try several modes from it: its samples, which the caller does
/// not fill, and what is known about its two sides. Make one once and use it again.
///
/// ```
/// use tilgwaren::{BlockSize, EdgeBlock, EdgePlane, IntraEdge, Place, PredictionMode, TxSize};
/// let mut samples = [7u8; 16 * 16];
/// let plane = EdgePlane::of_luma(16, 16);
/// let block = EdgeBlock::of_luma(8, 8, BlockSize::B8x8, TxSize::T8x8);
/// let mut edge = IntraEdge::<u8>::new();
/// edge.prepare(&samples, &plane, &block)?;
/// for mode in [PredictionMode::Dc, PredictionMode::V, PredictionMode::Paeth] {
///     edge.predict(&mut samples, Place { stride: 16, x: 8, y: 8 }, mode, 0, false)?;
/// }
/// # Ok::<(), tilgwaren::Error>(())
/// ```
#[derive(Clone)]
pub struct IntraEdge<T> {
    samples: [T; EDGE_SAMPLES],
    // The transform block as one that the edge's mode predicts, and that mode, if there is one.
    prepared: Option<(IntraBlock, Option<PredictionMode>)>,
}

impl<T> fmt::Debug for IntraEdge<T> {
    fn fmt(&self, f: &mut fmt::Formatter<'_>) -> fmt::Result {
        let prepared = &self.prepared;
        f.debug_struct("IntraEdge")
            .field("prepared", prepared)
            .finish()
    }
}

impl<T: Copy + Default> IntraEdge<T> {
    /// An edge that is not prepared yet.
    #[must_use]
    pub fn new() -> IntraEdge<T> {
        IntraEdge {
            samples: [T::default(); EDGE_SAMPLES],
            prepared: None,
        }
    }
}

impl<T: Copy + Default> Default for IntraEdge<T> {
    fn default() -> IntraEdge<T> {
        IntraEdge::new()
    }
}

impl<T: Copy> IntraEdge<T> {
    // What is known of a transform whose edge was prepared: its tile lies in the plane, and it
    // begins in the tile.
    fn know(&mut self, plane: &EdgePlane, block: &EdgeBlock) {
        let known = IntraBlock {
            mode: block.mode.unwrap_or_default(),
            tx_size: block.tx_size,
            angle_step: block.angle_step,
            bit_depth: block.bit_depth,
            has_left: block.x > 0,
            has_above: block.y > 0,
            edge_filter: block.edge_filter,
            smooth_neighbour: false,
            visible_columns: plane.width - plane.tile_x - block.x,
            visible_rows: plane.height - plane.tile_y - block.y,
        };
        self.prepared = Some((known, block.mode));
    }

    // The block to predict by a mode, which must be one that the edge is prepared for.
    fn block_of(&self, mode: PredictionMode, angle_step: i8) -> Result<IntraBlock, Error> {
        match self.prepared {
            None => Err(Error::TooShort),
            Some((_, Some(other))) if other != mode => Err(Error::BadMode),
            Some((known, Some(_))) if known.angle_step != angle_step => Err(Error::BadAngle),
            Some((known, _)) => Ok(IntraBlock {
                mode,
                angle_step,
                ..known
            }),
        }
    }

    /// The left edge, from the bottom up: 128 samples, of which the last ones are prepared.
    #[must_use]
    pub fn left(&self) -> &[T] {
        &self.samples[..EDGE_SAMPLES / 2]
    }

    /// The sample between the two edges.
    #[must_use]
    pub fn corner(&self) -> T {
        self.samples[EDGE_SAMPLES / 2]
    }

    /// The edge above: 128 samples, of which the first ones are prepared.
    #[must_use]
    pub fn above(&self) -> &[T] {
        &self.samples[EDGE_SAMPLES / 2 + 1..]
    }
}

macro_rules! edges_of {
    ($sample:ident, $intra_edge:ident, $predict_intra:ident, $predict_cfl:ident) => {
        impl IntraEdge<$sample> {
            /// Prepares the edge of a transform block for the mode of `block`. Without a mode it
            /// prepares it for all modes; the corner is then not filtered. `samples` are those of
            /// the plane.
            ///
            /// # Errors
            ///
            /// `BadMode`, then `BadAngle`, then `BadDepth`, then `BadArea`. The edge is then
            /// unchanged.
            pub fn prepare(
                &mut self,
                samples: &[$sample],
                plane: &EdgePlane,
                block: &EdgeBlock,
            ) -> Result<(), Error> {
                $intra_edge(&mut self.samples, samples, plane, block)?;
                self.know(plane, block);
                Ok(())
            }

            /// [`prepare`](Self::prepare) in a tile that is a region, whose first sample is the
            /// tile's. The region must have all columns and rows of the tile and of the transform.
            /// The `stride`, `x` and `y` of `plane` are not read.
            ///
            /// # Errors
            ///
            /// `BadArea`, then those of [`prepare`](Self::prepare). The edge is then unchanged.
            pub fn prepare_in_tile(
                &mut self,
                tile: &Region<'_, $sample>,
                room: &mut BlockRoom<$sample>,
                plane: &EdgePlane,
                block: &EdgeBlock,
            ) -> Result<(), Error> {
                let window = Window::new((tile.width(), tile.height()), plane, block)?;
                let samples = window.load(tile, room);
                $intra_edge(&mut self.samples, samples, &window.plane, &window.block)?;
                self.know(plane, block);
                Ok(())
            }

            /// Predicts the transform block from its edge by a mode, at `place` of `samples`. All
            /// other samples are unchanged.
            ///
            /// # Errors
            ///
            /// `TooShort`: the edge is not prepared. `BadMode`, `BadAngle`: it is prepared for
            /// another mode or angle. Then the errors of the call that predicts a block.
            pub fn predict(
                &self,
                samples: &mut [$sample],
                place: Place,
                mode: PredictionMode,
                angle_step: i8,
                smooth_neighbour: bool,
            ) -> Result<(), Error> {
                let block = IntraBlock {
                    smooth_neighbour,
                    ..self.block_of(mode, angle_step)?
                };
                $predict_intra(
                    samples,
                    place,
                    &block,
                    self.left(),
                    self.corner(),
                    self.above(),
                )
            }

            /// Predicts the transform block, one of chroma, from its edge and from luma, by the
            /// differences `ac` of luma from its mean, row by row, and their weight `alpha`. Both
            /// are in eighths. All other samples are unchanged.
            ///
            /// # Errors
            ///
            /// `TooShort`: the edge is not prepared. `BadMode`: it is prepared for a mode other
            /// than [`PredictionMode::Cfl`]. Then the errors of the call that predicts a block of chroma.
            pub fn predict_cfl(
                &self,
                samples: &mut [$sample],
                place: Place,
                ac: &[i16],
                alpha: i16,
            ) -> Result<(), Error> {
                let block = self.block_of(PredictionMode::Cfl, 0)?;
                $predict_cfl(samples, place, &block, self.left(), self.above(), ac, alpha)
            }
        }
    };
}

edges_of!(u8, intra_edge_8, predict_intra_8, predict_cfl_8);
edges_of!(u16, intra_edge_16, predict_intra_16, predict_cfl_16);
