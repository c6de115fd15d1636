//! Whole plans, grids of tiles, sequences, and planes of another encoder.

use crate::Error;
use crate::error::{of_parts, of_plan};
use std::mem::size_of;
use tilgwaren_sys as sys;

/// Computes how many bytes the planes of a plan have, which is how many [`reconstruct_plan`] writes.
/// It reads only the 20 bytes of the header at the front of `bytes`.
///
/// # Errors
///
/// `TooLong`, then `Malformed`.
pub fn planes_len(bytes: &[u8]) -> Result<usize, Error> {
    let mut len = 0;
    let mut refusal = sys::Refusal::default();
    // SAFETY: pointer and length come from one borrowed slice; the call writes only two locals.
    let status = unsafe { sys::planes_len(&mut len, &mut refusal, bytes.as_ptr(), bytes.len()) };
    of_plan(status, &refusal)?;
    Ok(len)
}

macro_rules! plane_calls {
    ($call:ident, $refusal:ident, $told:ident, $(#[$doc:meta])+) => {
        $(#[$doc])+
        pub fn $call(bytes: &[u8], room: &mut [u8]) -> Result<usize, Error> {
            let mut written = 0;
            let mut refusal = sys::$refusal::default();
            // SAFETY: pointers and lengths come from borrowed slices, `room` borrowed mutably; the
            // call writes only `room` and two locals.
            let status = unsafe {
                sys::$call(
                    room.as_mut_ptr(),
                    room.len(),
                    &mut written,
                    &mut refusal,
                    bytes.as_ptr(),
                    bytes.len(),
                )
            };
            $told(status, &refusal).map_err(|error| match error {
                Error::RoomTooSmall { .. } => Error::RoomTooSmall { needed: written },
                _ => error,
            })?;
            Ok(written)
        }
    };
}

plane_calls!(
    reconstruct_plan,
    Refusal,
    of_plan,
    /// Reconstructs a plan, writes its visible planes to the front of `room`, and returns how many
    /// bytes they have: Y, then U, then V, each row by row without padding. A sample takes one byte
    /// at depth 8, else two, the low byte first. The rest of `room` is unchanged.
    ///
    /// ```no_run
    /// let plan = std::fs::read("frame.plan")?;
    /// let mut planes = vec![0; tilgwaren::planes_len(&plan)?];
    /// tilgwaren::reconstruct_plan(&plan, &mut planes)?;
    /// # Ok::<(), Box<dyn std::error::Error>>(())
    /// ```
    ///
    /// # Errors
    ///
    /// `TooLong`, then `Malformed`, then `Invalid`, then `RoomTooSmall`. `OutOfMemory` can come
    /// instead of any except the first. The buffer is then unchanged.
);
plane_calls!(
    reconstruct_tiles,
    PartRefusal,
    of_parts,
    /// Reconstructs the tiles of a grid, none of which reads another. It writes the visible planes
    /// of their frame to the front of `room`, in the layout of [`reconstruct_plan`], and returns
    /// how many bytes they have. The rest of `room` is unchanged.
    ///
    /// # Errors
    ///
    /// `TooLong`, then `Malformed`, then `MalformedPart` or `InvalidPart`, whose part is a tile,
    /// then `RoomTooSmall`. `OutOfMemory` can come instead of any of them. The buffer is then
    /// unchanged.
);
plane_calls!(
    reconstruct_sequence,
    PartRefusal,
    of_parts,
    /// Reconstructs the frames of a sequence, each predicted from earlier ones. It writes the
    /// visible planes of all shown frames, one frame after the other, to the front of `room`, and
    /// returns how many bytes they have. The rest of `room` is unchanged.
    ///
    /// # Errors
    ///
    /// `TooLong`, then `Malformed`, then `TooLongPart`, `MalformedPart`, `InvalidPart` or
    /// `EmptySlot`, whose part is an entry, then `RoomTooSmall`. `OutOfMemory` can come instead of
    /// any of them. The buffer is then unchanged.
);

/// The first visible sample of a leaf in one plane that differs from the sample that the plan
/// defines.
#[repr(C)]
#[derive(Clone, Copy, Debug, Default, PartialEq, Eq)]
pub struct Difference {
    /// The leaf, counted from 0 in coding order.
    pub leaf: u32,
    /// The row of the sample in its plane.
    pub y: u16,
    /// The column of the sample in its plane.
    pub x: u16,
    /// The sample that was given: up to 16 bits at every depth.
    pub given: u16,
    /// The sample that the plan defines.
    pub defined: u16,
    /// 0 for Y, 1 for U and 2 for V.
    pub plane: u8,
}

// Both have the same fields in the same order.
const _: () = assert!(size_of::<Difference>() == size_of::<sys::Difference>());

/// A plane in memory, from its first visible sample on.
#[derive(Clone, Copy, Debug, Default, PartialEq, Eq)]
pub struct PlaneBytes<'a> {
    /// Its bytes: a sample takes one at depth 8, else two, the low byte first.
    pub bytes: &'a [u8],
    /// How many bytes apart its rows begin.
    pub stride: usize,
}

/// Compares the planes of a plan with planes Y, U and V that another encoder left, where they are,
/// and returns how many differences there are. Each leaf has at most one difference in each plane:
/// the first visible sample of its rectangle, in raster order, that differs. The first differences,
/// leaf by leaf in coding order, are written to `room`, as many as fit; the rest of `room` is
/// unchanged.
///
/// # Errors
///
/// `TooLong`, then `Malformed`, then `Invalid`, then `BadArea`: a row of a plane is longer than the
/// stride, or does not lie in the bytes. `OutOfMemory` can come instead of any of them. The buffer
/// is then unchanged.
pub fn trace_differences(
    plan: &[u8],
    planes: [PlaneBytes<'_>; 3],
    room: &mut [Difference],
) -> Result<usize, Error> {
    let mut found = 0;
    let mut refusal = sys::Refusal::default();
    let [y, u, v] = planes;
    // SAFETY: pointers and lengths come from borrowed slices, `room` borrowed mutably, whose
    // elements are laid out as the call's; the call writes only `room` and two locals.
    let status = unsafe {
        sys::trace_differences(
            room.as_mut_ptr().cast(),
            room.len(),
            &mut found,
            &mut refusal,
            plan.as_ptr(),
            plan.len(),
            y.bytes.as_ptr(),
            y.bytes.len(),
            y.stride,
            u.bytes.as_ptr(),
            u.bytes.len(),
            u.stride,
            v.bytes.as_ptr(),
            v.bytes.len(),
            v.stride,
        )
    };
    of_plan(status, &refusal)?;
    Ok(found)
}
