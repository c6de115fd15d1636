//! Samples that are checked against a depth once, so that calls need not check them again.

use crate::error::told;
use crate::{BitDepth, Error, MotionBlock, Place};
use std::fmt;
use std::sync::Arc;
use tilgwaren_sys as sys;

/// Samples of 16 bits, none of them past a depth, together with their owner: a borrowed slice, a
/// `Vec<u16>`, an `Arc<[u16]>`, or a frame or a plane of the caller's own type. A clone shares
/// them.
///
/// ```
/// use tilgwaren::{BitDepth, Error, Tested};
/// use std::sync::Arc;
///
/// struct Frame {
///     planes: [Vec<u16>; 3],
/// }
///
/// let frame = Arc::new(Frame { planes: [vec![1023; 64], vec![512; 16], vec![512; 16]] });
/// let tested = Tested::with(frame.clone(), |frame| &frame.planes[1], BitDepth::Ten)?;
/// assert_eq!(tested.samples(), [512; 16]);
/// assert!(matches!(Tested::new(vec![1023, 1024], BitDepth::Ten), Err(Error::BadSample)));
/// # Ok::<(), Error>(())
/// ```
///
/// Borrowed samples cannot be changed meanwhile:
///
/// ```compile_fail,E0506
/// let mut samples = [0; 64];
/// let tested = tilgwaren::Tested::new(&samples, tilgwaren::BitDepth::Ten)?;
/// samples[0] = 1024;
/// assert_eq!(tested.samples().len(), 64);
/// # Ok::<(), tilgwaren::Error>(())
/// ```
// Any owner will do: none has to promise anything. The owner is asked for its samples once, when
// they are checked, and only that slice is read later. A different slice that `AsRef` would return
// later has no effect. The samples stay what they are, like any slice that a reference to the owner
// has given. As long as a clone of this exists, nobody has the owner by `&mut` or by value, and the
// owner does not move. It is dropped after the last use of its samples. Parts of it that can change
// behind `&` cannot change a slice that it has lent.
pub struct Tested<S> {
    owner: Arc<S>,
    samples: *const [u16],
    bit_depth: BitDepth,
}

// SAFETY: it gives out the owner by `&`, the samples by `&`, and, by the last clone, the owner
// itself.
unsafe impl<S: Send + Sync> Send for Tested<S> {}
// SAFETY: as above.
unsafe impl<S: Send + Sync> Sync for Tested<S> {}

impl<S: AsRef<[u16]>> Tested<S> {
    /// Checks all samples of an owner. They cannot change as long as it is held here.
    ///
    /// # Errors
    ///
    /// `BadArea`: there are no samples. `BadSample`: a sample is past the depth.
    pub fn new(owner: S, bit_depth: BitDepth) -> Result<Tested<S>, Error> {
        Tested::with(owner, S::as_ref, bit_depth)
    }
}

impl<S> Tested<S> {
    /// [`Tested::new`] for samples that `samples` finds in the owner, such as those of a plane in a
    /// frame. `samples` is called once.
    ///
    /// # Errors
    ///
    /// Those of [`Tested::new`].
    pub fn with(
        owner: S,
        samples: impl FnOnce(&S) -> &[u16],
        bit_depth: BitDepth,
    ) -> Result<Tested<S>, Error> {
        let owner = Arc::new(owner);
        let samples = samples(&owner);
        let count = samples.len();
        // SAFETY: pointer and length come from one borrowed slice.
        told(unsafe {
            sys::test_samples_16(
                samples.as_ptr(),
                count,
                count,
                0,
                0,
                count,
                1,
                bit_depth.into(),
            )
        })?;
        let samples = samples as *const [u16];
        Ok(Tested {
            owner,
            samples,
            bit_depth,
        })
    }

    /// The samples.
    #[must_use]
    pub fn samples(&self) -> &[u16] {
        // SAFETY: the owner has lent them for as long as it is neither moved, dropped nor borrowed
        // mutably, and it is held here.
        unsafe { &*self.samples }
    }

    /// Their depth.
    #[must_use]
    pub fn bit_depth(&self) -> BitDepth {
        self.bit_depth
    }

    /// Their owner.
    #[must_use]
    pub fn owner(&self) -> &S {
        &self.owner
    }

    /// Returns the owner.
    ///
    /// # Errors
    ///
    /// This `Tested` itself, if a clone exists, which still needs the owner.
    pub fn into_owner(self) -> Result<S, Tested<S>> {
        let (samples, bit_depth) = (self.samples, self.bit_depth);
        Arc::try_unwrap(self.owner).map_err(|owner| Tested {
            owner,
            samples,
            bit_depth,
        })
    }
}

impl<S> Clone for Tested<S> {
    fn clone(&self) -> Tested<S> {
        Tested {
            owner: self.owner.clone(),
            ..*self
        }
    }
}

impl<S> fmt::Debug for Tested<S> {
    fn fmt(&self, f: &mut fmt::Formatter<'_>) -> fmt::Result {
        f.debug_struct("Tested")
            .field("samples", &self.samples())
            .field("bit_depth", &self.bit_depth)
            .finish()
    }
}

/// [`put_8tap_8`](crate::put_8tap_8) for samples of 16 bits, at the depth of the reference.
///
/// # Errors
///
/// `BadSize`, then `BadFraction`, then `BadArea`. The samples are then unchanged.
pub fn put_tested_16<S>(
    dst: &mut [u16],
    to: Place,
    src: &Tested<S>,
    from: Place,
    block: &MotionBlock,
) -> Result<(), Error> {
    let samples = src.samples();
    // SAFETY: pointers and lengths come from borrowed slices, `dst` borrowed mutably. No sample of
    // the reference is past the depth: all were checked when it was made.
    told(unsafe {
        sys::put_tested_16(
            dst.as_mut_ptr(),
            dst.len(),
            to.stride,
            to.x,
            to.y,
            samples.as_ptr(),
            samples.len(),
            from.stride,
            from.x,
            from.y,
            &block.into(),
            src.bit_depth.into(),
        )
    })
}

/// [`prep_8tap_8`](crate::prep_8tap_8) for samples of 16 bits, at the depth of the reference. A
/// value is 16 times a sample, 4 times at depth 12, and from depth 10 on less by 8192.
///
/// # Errors
///
/// `BadSize`, then `BadFraction`, then `BadArea`, then `TooShort`. The values are
/// then unchanged.
pub fn prep_tested_16<S>(
    values: &mut [i16],
    src: &Tested<S>,
    from: Place,
    block: &MotionBlock,
) -> Result<(), Error> {
    let samples = src.samples();
    // SAFETY: as above.
    told(unsafe {
        sys::prep_tested_16(
            values.as_mut_ptr(),
            values.len(),
            samples.as_ptr(),
            samples.len(),
            from.stride,
            from.x,
            from.y,
            &block.into(),
            src.bit_depth.into(),
        )
    })
}
