//! The differences of luma from its mean that predict chroma.

use crate::error::told;
use crate::{BitDepth, BlockSize, Error, Place, Sampling, TxSize};
use tilgwaren_sys as sys;

/// A block of chroma that is predicted from luma.
#[derive(Clone, Copy, Debug, Default, PartialEq, Eq)]
pub struct CflBlock {
    /// Its size in chroma samples. Neither width nor height exceeds 32.
    pub block_size: BlockSize,
    /// How many samples chroma has.
    pub sampling: Sampling,
    /// How many units of 4 columns of chroma, at the right end of the block, have no luma of their
    /// own.
    pub w_pad: usize,
    /// How many units of 4 rows of chroma, at the bottom end of the block, have no luma of their
    /// own.
    pub h_pad: usize,
}

impl CflBlock {
    /// How many columns and rows of luma are read, or `None` if the block is rejected.
    fn luma_read(&self) -> Option<(usize, usize)> {
        let read = |side: usize, pad: usize, halved: bool| {
            let own = side.checked_sub(pad.checked_mul(4)?)?;
            let shift = usize::from(halved);
            (side <= 32 && own > 0).then_some((side << shift).min((own << shift).max(8)))
        };
        let size = self.block_size;
        let columns = read(size.width(), self.w_pad, self.sampling.halves_columns())?;
        Some((
            columns,
            read(size.height(), self.h_pad, self.sampling.halves_rows())?,
        ))
    }
}

impl From<&CflBlock> for sys::CflBlock {
    fn from(of: &CflBlock) -> sys::CflBlock {
        sys::CflBlock {
            block_size: of.block_size.into(),
            halved_columns: of.sampling.halves_columns().into(),
            halved_rows: of.sampling.halves_rows().into(),
            w_pad: of.w_pad,
            h_pad: of.h_pad,
        }
    }
}

/// A block whose chroma is predicted from its luma.
#[derive(Clone, Copy, Debug, Default, PartialEq, Eq)]
pub struct LumaBlock {
    /// Its size in luma samples.
    pub block_size: BlockSize,
    /// The size of its luma transforms.
    pub tx_size: TxSize,
    /// How many samples chroma has.
    pub sampling: Sampling,
    /// How many visible columns of luma there are from its first on.
    pub visible_columns: usize,
    /// How many visible rows of luma there are from its first on.
    pub visible_rows: usize,
}

/// Finds the chroma block that is predicted from the luma of a block: its size, and how many units
/// of 4 columns and rows have no luma of their own, since no transform that begins in the visible
/// plane codes it.
///
/// A block with a dimension of 4 that is halved shares its chroma with the block before it. The
/// calls then read all 8 luma samples of both blocks.
///
/// # Errors
///
/// `BadSize`: the chroma has no size of at most 32. Then `BadPad`: none of its luma is visible.
pub fn cfl_block_of(luma: &LumaBlock) -> Result<CflBlock, Error> {
    let given = sys::LumaBlock {
        block_size: luma.block_size.into(),
        tx_size: luma.tx_size.into(),
        halved_columns: luma.sampling.halves_columns().into(),
        halved_rows: luma.sampling.halves_rows().into(),
        visible_columns: luma.visible_columns,
        visible_rows: luma.visible_rows,
    };
    let mut block = sys::CflBlock::default();
    // SAFETY: each pointer leads to one value, `block` borrowed mutably.
    told(unsafe { sys::cfl_block_of(&mut block, &given) })?;
    Ok(CflBlock {
        block_size: BlockSize::try_from(block.block_size).map_err(|_| Error::BadSize)?,
        sampling: luma.sampling,
        w_pad: block.w_pad,
        h_pad: block.h_pad,
    })
}

/// Computes how far the luma over each sample of a chroma block is from the mean, in eighths. It
/// writes the differences to `ac`, row by row; the rest of `ac` is unchanged.
///
/// The block's luma begins at `place`. The call reads the luma columns over the chroma columns that
/// have luma of their own. It reads at least 8 luma columns, but none past the block. The other
/// chroma columns repeat the last luma that is read. The same holds for rows.
///
/// # Errors
///
/// `BadSize`, then `BadPad`, then `BadArea`, then `TooShort`. The differences are then unchanged.
pub fn cfl_ac_8(ac: &mut [i16], luma: &[u8], place: Place, block: &CflBlock) -> Result<(), Error> {
    // SAFETY: pointers and lengths come from borrowed slices, `ac` borrowed mutably.
    told(unsafe {
        sys::cfl_ac_8(
            ac.as_mut_ptr(),
            ac.len(),
            luma.as_ptr(),
            luma.len(),
            place.stride,
            place.x,
            place.y,
            &block.into(),
        )
    })
}

/// [`cfl_ac_8`] for samples of 16 bits, at any depth.
///
/// # Errors
///
/// `BadSize`, then `BadPad`, then `BadArea`, then `BadSample`: a sample that is read has more than
/// 12 bits. Then `TooShort`. The differences are then unchanged.
pub fn cfl_ac_16(
    ac: &mut [i16],
    luma: &[u16],
    place: Place,
    block: &CflBlock,
) -> Result<(), Error> {
    if let Some((width, height)) = block.luma_read() {
        // SAFETY: pointer and length come from one borrowed slice.
        told(unsafe {
            sys::test_samples_16(
                luma.as_ptr(),
                luma.len(),
                place.stride,
                place.x,
                place.y,
                width,
                height,
                BitDepth::Twelve.into(),
            )
        })?;
    }
    // SAFETY: pointers and lengths come from borrowed slices, `ac` borrowed mutably. The samples
    // that are read were checked, unless the block is rejected before any is read.
    told(unsafe {
        sys::cfl_ac_tested_16(
            ac.as_mut_ptr(),
            ac.len(),
            luma.as_ptr(),
            luma.len(),
            place.stride,
            place.x,
            place.y,
            &block.into(),
        )
    })
}
