//! The inverse transform of a block, added to the caller's samples.

use crate::error::told;
use crate::{BitDepth, Context, Error, TxSize, TxType};
use tilgwaren_sys as sys;

/// A transform, and where its block begins.
#[derive(Clone, Copy, Debug, Default, PartialEq, Eq)]
pub struct TransformBlock {
    /// The size of the transform.
    pub tx_size: TxSize,
    /// Its type.
    pub tx_type: TxType,
    /// The column of its first sample.
    pub x: usize,
    /// The row of its first sample.
    pub y: usize,
}

/// How many elements a list of coefficients has up to the last one among the first `eob` in AV1's
/// scan order. [`inverse_transform_add_8`] needs no more of them, because those after the end of
/// the block are 0. `eob` counts coefficients, so it is 1 if there is no other than the first.
#[must_use]
pub fn coefficients_len(tx_size: TxSize, tx_type: TxType, eob: usize) -> usize {
    let (width, height) = (tx_size.width().min(32), tx_size.height().min(32));
    if eob == 0 || eob >= width * height {
        return eob.min(width * height);
    }
    match tx_type {
        TxType::HDct | TxType::HAdst | TxType::HFlipAdst => eob,
        TxType::VDct | TxType::VAdst | TxType::VFlipAdst if eob < width => (eob - 1) * height + 1,
        TxType::VDct | TxType::VAdst | TxType::VFlipAdst => (width - 1) * height + eob / width,
        _ => len_by_diagonals(width, height, eob),
    }
}

// The same for a scan by diagonals. The diagonals of a high block go from their last column to the
// first, and those of a wide block from the first to the last. Those of a square take turns.
fn len_by_diagonals(width: usize, height: usize, eob: usize) -> usize {
    let (mut left, mut before) = (eob - 1, 0);
    for diagonal in 0..width + height - 1 {
        let (first, last) = (diagonal.saturating_sub(height - 1), diagonal.min(width - 1));
        let len_to = |column: usize| column * height + (diagonal - column) + 1;
        if left <= last - first {
            let goes_down = width < height || (width == height && diagonal % 2 == 1);
            let column = if goes_down { last } else { first + left };
            return len_to(column).max(before);
        }
        left -= last - first + 1;
        before = len_to(last);
    }
    width * height
}

macro_rules! transform_calls {
    ($call:ident, $sample:ident, $coefficient:ident, $($depth:ident,)? $(#[$doc:meta])+) => {
        $(#[$doc])+
        pub fn $call(
            context: &mut Context,
            coefficients: &[$coefficient],
            samples: &mut [$sample],
            stride: usize,
            block: TransformBlock,
            $($depth: BitDepth,)?
        ) -> Result<(), Error> {
            // SAFETY: pointers and lengths come from borrowed memory, `samples` and `context`
            // borrowed mutably.
            told(unsafe {
                sys::$call(
                    samples.as_mut_ptr(),
                    samples.len(),
                    stride,
                    block.x,
                    block.y,
                    context.as_mut(),
                    coefficients.as_ptr(),
                    coefficients.len(),
                    block.tx_size.into(),
                    block.tx_type.into(),
                    $($depth.into(),)?
                )
            })
        }
    };
}

transform_calls!(
    inverse_transform_add_8,
    u8,
    i16,
    /// Adds the residual of a block to samples of 8 bits whose rows are `stride` samples apart, and
    /// clips the sums to a depth of 8. Coefficients are ordered column by column: row r of column c
    /// is at `c * min(height, 32) + r`. Rows and columns from 32 on have no coefficients. The list
    /// may end after the last nonzero one: missing ones are 0 and cost nothing.
    ///
    /// # Errors
    ///
    /// `BadType`, then `BadArea`. The samples are then unchanged.
);
transform_calls!(
    inverse_transform_add_16,
    u16,
    i32,
    bit_depth,
    /// [`inverse_transform_add_8`] for samples of 16 bits. A sample past the depth is clipped after
    /// the addition. If rav1e's transform differs from AV1's, this call follows AV1.
    ///
    /// # Errors
    ///
    /// `BadType`, then `BadArea`, then `BadCoefficient`: a coefficient has more than
    /// `bit_depth + 8` bits, sign included: clamp those that you dequantize, as AV1 does. The samples are then unchanged.
);
transform_calls!(
    inverse_transform_add_rav1e_16,
    u16,
    i32,
    bit_depth,
    /// [`inverse_transform_add_16`] by rav1e's rules, which differ above a depth of 8. At depth 12
    /// the identities of 4 and 16 values along rows wrap at 32 bits, and AV1's do not. Lossless
    /// blocks ([`TxType::WhtWht`]) are clamped between the passes, like all other blocks.
    ///
    /// # Errors
    ///
    /// Those of [`inverse_transform_add_16`]. The samples are then unchanged.
);
