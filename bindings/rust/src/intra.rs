//! Intra prediction of a block in the caller's memory.

use crate::error::told;
use crate::{BitDepth, EdgeBlock, EdgePlane, Error, Place, PredictionMode, TxSize};
use tilgwaren_sys as sys;

/// A block that an intra mode predicts.
#[derive(Clone, Copy, Debug, Default, PartialEq, Eq)]
pub struct IntraBlock {
    /// Its mode, up to [`PredictionMode::Paeth`]. Prediction from luma does not read it.
    pub mode: PredictionMode,
    /// Its size.
    pub tx_size: TxSize,
    /// How many steps of 3 degrees a directional mode turns, from -3 to 3; 0 in other modes.
    pub angle_step: i8,
    /// The depth of its samples.
    pub bit_depth: BitDepth,
    /// Whether the left edge lies in the block's tile.
    pub has_left: bool,
    /// Whether the edge above lies in the block's tile.
    pub has_above: bool,
    /// Whether the edge filter is on.
    pub edge_filter: bool,
    /// Whether a neighbour has a smooth mode. It is not read if the filter is off.
    pub smooth_neighbour: bool,
    /// How many visible columns the plane has from the block's first one on. The filter smooths
    /// none past them.
    pub visible_columns: usize,
    /// How many visible rows the plane has from the block's first one on.
    pub visible_rows: usize,
}

impl From<&IntraBlock> for sys::IntraBlock {
    fn from(of: &IntraBlock) -> sys::IntraBlock {
        sys::IntraBlock {
            mode: of.mode.into(),
            tx_size: of.tx_size.into(),
            angle_step: of.angle_step,
            bit_depth: of.bit_depth.into(),
            has_left: of.has_left.into(),
            has_above: of.has_above.into(),
            edge_filter: of.edge_filter.into(),
            smooth_neighbour: of.smooth_neighbour.into(),
            visible_columns: of.visible_columns,
            visible_rows: of.visible_rows,
        }
    }
}

macro_rules! intra_calls {
    ($sample:ident, $predict_intra:ident, $predict_cfl:ident, $predict_in_plane:ident) => {
        /// Predicts a block by its intra mode from the edges around it. All other samples are
        /// unchanged.
        ///
        /// `left` runs from the bottom up: its last sample is next to the first row. `above` runs
        /// from left to right, and `corner` is between the two. The call reads the samples of each
        /// edge that are nearest to the corner. Samples past the depth are used as they are.
        ///
        /// # Errors
        ///
        /// `BadMode`, then `BadAngle`, then `BadDepth`, then `BadArea`, then `TooShort`.
        pub fn $predict_intra(
            samples: &mut [$sample],
            place: Place,
            block: &IntraBlock,
            left: &[$sample],
            corner: $sample,
            above: &[$sample],
        ) -> Result<(), Error> {
            // SAFETY: pointers and lengths come from borrowed slices, `samples` borrowed mutably.
            told(unsafe {
                sys::$predict_intra(
                    samples.as_mut_ptr(),
                    samples.len(),
                    place.stride,
                    place.x,
                    place.y,
                    &block.into(),
                    left.as_ptr(),
                    left.len(),
                    corner,
                    above.as_ptr(),
                    above.len(),
                )
            })
        }

        /// Predicts a block of chroma from luma. To the DC prediction from the edges inside the
        /// tile, it adds for each sample `alpha` times the difference in `ac`, and clips to the
        /// depth. `ac` has the differences of luma from its mean, row by row; `ac` and `alpha` are
        /// in eighths.
        ///
        /// # Errors
        ///
        /// `BadSize`, then `BadAngle`, then `BadDepth`, then `BadArea`, then `TooShort`.
        pub fn $predict_cfl(
            samples: &mut [$sample],
            place: Place,
            block: &IntraBlock,
            left: &[$sample],
            above: &[$sample],
            ac: &[i16],
            alpha: i16,
        ) -> Result<(), Error> {
            // SAFETY: as above.
            told(unsafe {
                sys::$predict_cfl(
                    samples.as_mut_ptr(),
                    samples.len(),
                    place.stride,
                    place.x,
                    place.y,
                    &block.into(),
                    left.as_ptr(),
                    left.len(),
                    above.as_ptr(),
                    above.len(),
                    ac.as_ptr(),
                    ac.len(),
                    alpha,
                )
            })
        }

        /// Predicts a transform block in the samples of its plane: prepares its edge, then predicts
        /// from it. All other samples are unchanged. The position and `plane` say whether an edge
        /// lies in the tile, and how many samples are visible.
        ///
        /// [`PredictionMode::Cfl`] reads the differences `ac` of luma from its mean, row by row,
        /// and their weight `alpha`, both in eighths; other modes read neither. Samples past the
        /// depth are used as they are.
        ///
        /// # Errors
        ///
        /// `BadMode`, `BadAngle`, `BadDepth`, `BadArea` or `TooShort` (`ac`). The samples are then
        /// unchanged.
        pub fn $predict_in_plane(
            samples: &mut [$sample],
            plane: &EdgePlane,
            block: &EdgeBlock,
            smooth_neighbour: bool,
            ac: &[i16],
            alpha: i16,
        ) -> Result<(), Error> {
            // SAFETY: as above.
            told(unsafe {
                sys::$predict_in_plane(
                    samples.as_mut_ptr(),
                    samples.len(),
                    &plane.into(),
                    &block.into(),
                    smooth_neighbour.into(),
                    ac.as_ptr(),
                    ac.len(),
                    alpha,
                )
            })
        }
    };
}

intra_calls!(u8, predict_intra_8, predict_cfl_8, predict_in_plane_8);
intra_calls!(u16, predict_intra_16, predict_cfl_16, predict_in_plane_16);
