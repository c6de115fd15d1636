//! Blocks of references: predicted from one, or prepared and averaged from two.

use crate::error::told;
use crate::{BitDepth, Context, Error, Filter, Place, Tested};
use tilgwaren_sys as sys;

/// A block, and how far it is moved between the samples of its reference.
#[derive(Clone, Copy, Debug, Default, PartialEq, Eq)]
pub struct MotionBlock {
    /// How many columns it has: from 1 to 128.
    pub width: usize,
    /// How many rows it has: from 1 to 128.
    pub height: usize,
    /// How far it is moved right, in sixteenths of a sample: below 16.
    pub fraction_x: u8,
    /// How far it is moved down, in sixteenths of a sample: below 16.
    pub fraction_y: u8,
    /// The filter along rows.
    pub filter_x: Filter,
    /// The filter down columns.
    pub filter_y: Filter,
}

impl From<&MotionBlock> for sys::MotionBlock {
    fn from(of: &MotionBlock) -> sys::MotionBlock {
        sys::MotionBlock {
            width: of.width,
            height: of.height,
            fraction_x: of.fraction_x,
            fraction_y: of.fraction_y,
            filter_x: of.filter_x.into(),
            filter_y: of.filter_y.into(),
        }
    }
}

/// Predicts a block of samples of 8 bits from one reference. `to` is the place of its first
/// sample in `dst`, and `from` that in the reference `src`, before the fractions. If the fraction
/// of the columns is not 0, the call also reads 3 columns before the block and 4 after it. The
/// same holds for rows.
///
/// # Errors
///
/// `BadSize`, then `BadFraction`, then `BadArea`. The samples are then unchanged.
pub fn put_8tap_8(
    dst: &mut [u8],
    to: Place,
    src: &[u8],
    from: Place,
    block: &MotionBlock,
) -> Result<(), Error> {
    // SAFETY: pointers and lengths come from borrowed slices, `dst` borrowed mutably.
    told(unsafe {
        sys::put_8tap_8(
            dst.as_mut_ptr(),
            dst.len(),
            to.stride,
            to.x,
            to.y,
            src.as_ptr(),
            src.len(),
            from.stride,
            from.x,
            from.y,
            &block.into(),
        )
    })
}
/// Prepares a block of a reference of 8 bits for the average with another block. The call
/// writes the first `height * width` of `values`, row by row. A value is 16 times a sample.
/// Everything else is as in [`put_8tap_8`].
///
/// # Errors
///
/// `BadSize`, then `BadFraction`, then `BadArea`, then `TooShort`. The values are then
/// unchanged.
pub fn prep_8tap_8(
    values: &mut [i16],
    src: &[u8],
    from: Place,
    block: &MotionBlock,
) -> Result<(), Error> {
    // SAFETY: pointers and lengths come from borrowed slices, `values` borrowed mutably.
    told(unsafe {
        sys::prep_8tap_8(
            values.as_mut_ptr(),
            values.len(),
            src.as_ptr(),
            src.len(),
            from.stride,
            from.x,
            from.y,
            &block.into(),
        )
    })
}
macro_rules! average_calls {
    ($call:ident, $sample:ident, $($depth:ident,)? $(#[$doc:meta])+) => {
        $(#[$doc])+
        pub fn $call(
            samples: &mut [$sample],
            to: Place,
            width: usize,
            height: usize,
            first: &[i16],
            second: &[i16],
            $($depth: BitDepth,)?
        ) -> Result<(), Error> {
            // SAFETY: pointers and lengths come from borrowed slices, `samples` borrowed mutably.
            told(unsafe {
                sys::$call(
                    samples.as_mut_ptr(),
                    samples.len(),
                    to.stride,
                    to.x,
                    to.y,
                    width,
                    height,
                    first.as_ptr(),
                    first.len(),
                    second.as_ptr(),
                    second.len(),
                    $($depth.into(),)?
                )
            })
        }
    };
}

average_calls!(
    mc_avg_8,
    u8,
    /// Averages two prepared blocks at a depth of 8, and writes the samples of the rectangle whose
    /// first is at `to`. The values are row by row at the front of `first` and of `second`, as
    /// [`prep_8tap_8`] leaves them.
    ///
    /// # Errors
    ///
    /// `BadSize`, then `BadArea`, then `TooShort`. The samples are then unchanged.
);
average_calls!(
    mc_avg_16,
    u16,
    bit_depth,
    /// [`mc_avg_8`] for samples of 16 bits.
    ///
    /// # Errors
    ///
    /// Those of [`mc_avg_8`].
);

/// A plane of a reference.
#[derive(Clone, Copy, Debug, Default, PartialEq, Eq)]
pub struct MotionPlane {
    /// How many samples apart its rows are.
    pub stride: usize,
    /// The column of its first visible sample.
    pub x: usize,
    /// The row of its first visible sample.
    pub y: usize,
    /// How many visible columns it has: from 1 to 65,536.
    pub width: usize,
    /// How many visible rows it has: from 1 to 65,536.
    pub height: usize,
    /// Whether it has half of luma's columns.
    pub halved_columns: bool,
    /// Whether it has half of luma's rows.
    pub halved_rows: bool,
}

impl From<&MotionPlane> for sys::MotionPlane {
    fn from(of: &MotionPlane) -> sys::MotionPlane {
        sys::MotionPlane {
            stride: of.stride,
            x: of.x,
            y: of.y,
            width: of.width,
            height: of.height,
            halved_columns: of.halved_columns.into(),
            halved_rows: of.halved_rows.into(),
        }
    }
}

/// A block of a plane, and the vector that moves it.
#[derive(Clone, Copy, Debug, Default, PartialEq, Eq)]
pub struct MovedBlock {
    /// The column of its first sample, up to 65,536.
    pub x: usize,
    /// The row of its first sample, up to 65,536.
    pub y: usize,
    /// How many columns it has: from 1 to 128.
    pub width: usize,
    /// How many rows it has: from 1 to 128.
    pub height: usize,
    /// How far the vector points down, in eighths of a luma sample.
    pub mv_y: i16,
    /// How far it points to the right, in eighths of a luma sample.
    pub mv_x: i16,
    /// The filter along rows.
    pub filter_x: Filter,
    /// The filter down columns.
    pub filter_y: Filter,
}

impl From<&MovedBlock> for sys::MovedBlock {
    fn from(of: &MovedBlock) -> sys::MovedBlock {
        sys::MovedBlock {
            x: of.x,
            y: of.y,
            width: of.width,
            height: of.height,
            mv_y: of.mv_y,
            mv_x: of.mv_x,
            filter_x: of.filter_x.into(),
            filter_y: of.filter_y.into(),
        }
    }
}

/// Predicts a block from a reference of 8 bits without padding. `to` is the place of its first
/// sample in `dst`. The call follows the vector and reads only visible samples of the plane.
/// Outside the plane, every sample equals the nearest edge sample.
///
/// # Errors
///
/// `BadSize`, then `BadArea`. The samples are then unchanged.
pub fn put_moved_8(
    dst: &mut [u8],
    to: Place,
    src: &[u8],
    plane: &MotionPlane,
    block: &MovedBlock,
    context: &mut Context,
) -> Result<(), Error> {
    // SAFETY: pointers and lengths come from borrowed memory, `dst` and `context` borrowed mutably.
    told(unsafe {
        sys::put_moved_8(
            dst.as_mut_ptr(),
            dst.len(),
            to.stride,
            to.x,
            to.y,
            context.as_mut(),
            src.as_ptr(),
            src.len(),
            &plane.into(),
            &block.into(),
        )
    })
}

/// [`put_moved_8`] for samples of 16 bits at the depth of the reference.
///
/// # Errors
///
/// `BadSize`, then `BadArea`. The samples are then unchanged.
pub fn put_moved_16<S>(
    dst: &mut [u16],
    to: Place,
    src: &Tested<S>,
    plane: &MotionPlane,
    block: &MovedBlock,
    context: &mut Context,
) -> Result<(), Error> {
    // SAFETY: as above. No sample of the reference is past the depth: all were checked when it was
    // made.
    told(unsafe {
        sys::put_moved_16(
            dst.as_mut_ptr(),
            dst.len(),
            to.stride,
            to.x,
            to.y,
            context.as_mut(),
            src.samples().as_ptr(),
            src.samples().len(),
            &plane.into(),
            &block.into(),
            src.bit_depth().into(),
        )
    })
}

/// Prepares such a block for the average with another block, from a reference of 8 bits without
/// padding. The call writes the first `height * width` of `values`, row by row, as [`prep_8tap_8`]
/// does.
///
/// # Errors
///
/// `BadSize`, then `BadArea`, then `TooShort`. The values are then unchanged.
pub fn prep_moved_8(
    values: &mut [i16],
    src: &[u8],
    plane: &MotionPlane,
    block: &MovedBlock,
    context: &mut Context,
) -> Result<(), Error> {
    // SAFETY: pointers and lengths come from borrowed memory, `values` and `context` borrowed
    // mutably.
    told(unsafe {
        sys::prep_moved_8(
            values.as_mut_ptr(),
            values.len(),
            context.as_mut(),
            src.as_ptr(),
            src.len(),
            &plane.into(),
            &block.into(),
        )
    })
}

/// [`prep_moved_8`] for samples of 16 bits at the depth of the reference, with the values of
/// [`prep_tested_16`](crate::prep_tested_16).
///
/// # Errors
///
/// `BadSize`, then `BadArea`, then `TooShort`. The values are then unchanged.
pub fn prep_moved_16<S>(
    values: &mut [i16],
    src: &Tested<S>,
    plane: &MotionPlane,
    block: &MovedBlock,
    context: &mut Context,
) -> Result<(), Error> {
    // SAFETY: as above. No sample of the reference is past the depth: all were checked when it was
    // made.
    told(unsafe {
        sys::prep_moved_16(
            values.as_mut_ptr(),
            values.len(),
            context.as_mut(),
            src.samples().as_ptr(),
            src.samples().len(),
            &plane.into(),
            &block.into(),
            src.bit_depth().into(),
        )
    })
}
