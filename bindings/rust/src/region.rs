//! Rectangles of a plane, split into disjoint ones, so that threads can work on tiles of one plane.

use crate::Error;
use std::fmt;
use std::marker::PhantomData;
use std::ptr;
use std::slice;

/// Column `x` of row `y` of samples whose rows are `stride` samples apart. A rectangle there lies
/// in the samples if `x + width <= stride` and `(y + height) * stride` is at most their number: its
/// last row also has `stride` samples.
#[derive(Clone, Copy, Debug, Default, PartialEq, Eq)]
pub struct Place {
    /// How many samples apart rows are.
    pub stride: usize,
    /// The column.
    pub x: usize,
    /// The row.
    pub y: usize,
}

/// A buffer in which a call works on the samples of a rectangle, without gaps between its rows.
/// Each thread makes its own once and uses it again; its contents before a call don't matter. It
/// allocates if a rectangle has more samples than any before it.
#[derive(Clone, Debug)]
pub struct BlockRoom<T>(Vec<T>);

impl<T> BlockRoom<T> {
    /// A buffer that has not allocated yet.
    #[must_use]
    pub const fn new() -> BlockRoom<T> {
        BlockRoom(Vec::new())
    }
}

impl<T: Copy + Default> BlockRoom<T> {
    // The first `len` samples, allocated if they are missing.
    pub(crate) fn of(&mut self, count: usize) -> &mut [T] {
        if self.0.len() < count {
            self.0.resize(count, T::default());
        }
        &mut self.0[..count]
    }
}

impl<T> Default for BlockRoom<T> {
    fn default() -> BlockRoom<T> {
        BlockRoom::new()
    }
}

// Rows of samples: where the first begins, how far apart they are, how many there are, and how many
// samples each has. Only a caller who knows that the samples exist and are its own may use `row`
// and `copy_to`.
struct Rows<T> {
    first: *mut T,
    stride: isize,
    width: usize,
    height: usize,
}

impl<T> Clone for Rows<T> {
    fn clone(&self) -> Rows<T> {
        *self
    }
}

impl<T> Copy for Rows<T> {}

impl<T> fmt::Debug for Rows<T> {
    fn fmt(&self, f: &mut fmt::Formatter<'_>) -> fmt::Result {
        write!(f, "{} by {} samples", self.width, self.height)
    }
}

impl<T> Rows<T> {
    // The address of column `x` of row `y`.
    fn at(&self, x: usize, y: usize) -> *mut T {
        self.first
            .wrapping_offset(self.stride.wrapping_mul(y as isize))
            .wrapping_add(x)
    }

    // The rows of a rectangle that lies in these rows.
    fn part(&self, x: usize, y: usize, width: usize, height: usize) -> Rows<T> {
        Rows {
            first: self.at(x, y),
            stride: self.stride,
            width,
            height,
        }
    }

    // The same, if the rectangle does lie in these rows.
    fn within(&self, x: usize, y: usize, width: usize, height: usize) -> Result<Rows<T>, Error> {
        let fits =
            |from: usize, count, all| matches!(from.checked_add(count), Some(end) if end <= all);
        if fits(x, width, self.width) && fits(y, height, self.height) {
            Ok(self.part(x, y, width, height))
        } else {
            Err(Error::BadArea)
        }
    }

    // Rows next to one another in a slice.
    fn of(samples: &mut [T], width: usize, height: usize) -> Rows<T> {
        Rows {
            first: samples.as_mut_ptr(),
            stride: width as isize,
            width,
            height,
        }
    }

    // How many samples they have.
    fn count(&self) -> Result<usize, Error> {
        self.width.checked_mul(self.height).ok_or(Error::BadArea)
    }

    // The samples of row `y`, if there is such a row.
    //
    // Safety: they exist, and nobody writes them during 'a.
    unsafe fn row<'a>(&self, y: usize) -> Option<&'a [T]> {
        if y >= self.height {
            None
        } else if self.width == 0 {
            Some(&[])
        } else {
            // SAFETY: the caller guarantees it.
            Some(unsafe { slice::from_raw_parts(self.at(0, y), self.width) })
        }
    }
}

impl<T: Copy> Rows<T> {
    // Copies all samples to rows of the same number and length. Rows as long as a transform's are
    // copied by moves of a known length.
    //
    // Safety: both exist and are borrowed, these to read and the others to write.
    unsafe fn copy_to(&self, to: &Rows<T>) {
        // SAFETY: the caller guarantees it; each row has this many samples.
        unsafe {
            match self.width {
                0 => {}
                4 => self.copy_rows_of::<4>(to),
                8 => self.copy_rows_of::<8>(to),
                16 => self.copy_rows_of::<16>(to),
                32 => self.copy_rows_of::<32>(to),
                64 => self.copy_rows_of::<64>(to),
                width => {
                    for y in 0..self.height {
                        ptr::copy_nonoverlapping(self.at(0, y), to.at(0, y), width);
                    }
                }
            }
        }
    }

    // The same for rows of `N` samples.
    //
    // Safety: as above.
    unsafe fn copy_rows_of<const N: usize>(&self, to: &Rows<T>) {
        for y in 0..self.height {
            // SAFETY: the caller guarantees it. What is written is borrowed mutably, so it is not
            // what is read.
            unsafe { ptr::copy_nonoverlapping(self.at(0, y), to.at(0, y), N) };
        }
    }
}

/// A rectangle of samples to read, in rows that are `stride` samples apart. Others may write what
/// lies between its rows.
#[derive(Clone, Copy, Debug)]
pub struct Region<'a, T> {
    rows: Rows<T>,
    lent: PhantomData<&'a [T]>,
}

// SAFETY: a region borrows its samples, as a slice does, and no others.
unsafe impl<T: Sync> Send for Region<'_, T> {}
// SAFETY: as above.
unsafe impl<T: Sync> Sync for Region<'_, T> {}

impl<'a, T> Region<'a, T> {
    /// The rectangle of `width` by `height` samples whose first is `samples[first]`. Each row
    /// begins `stride` samples after the one before, or before it if `stride` is negative. The last
    /// row may end with its own samples.
    ///
    /// # Errors
    ///
    /// `BadArea`: one of its samples is not in `samples`, or its rows overlap.
    pub fn new(
        samples: &'a [T],
        first: usize,
        stride: isize,
        width: usize,
        height: usize,
    ) -> Result<Region<'a, T>, Error> {
        if !lies_in(samples.len(), first, stride, width, height) {
            return Err(Error::BadArea);
        }
        let first = samples.as_ptr().wrapping_add(first);
        // SAFETY: all its samples are in the slice, which is borrowed for as long.
        Ok(unsafe { Region::from_raw_parts(first, stride, width, height) })
    }

    /// The rectangle whose first sample is at `first`, in a plane that others may write elsewhere.
    ///
    /// # Safety
    ///
    /// During `'a` each sample of the rectangle exists, in one allocation, and nobody writes it.
    pub unsafe fn from_raw_parts(
        first: *const T,
        stride: isize,
        width: usize,
        height: usize,
    ) -> Region<'a, T> {
        Region {
            rows: Rows {
                first: first as *mut T,
                stride,
                width,
                height,
            },
            lent: PhantomData,
        }
    }

    /// How many columns it has.
    #[must_use]
    pub fn width(&self) -> usize {
        self.rows.width
    }

    /// How many rows it has.
    #[must_use]
    pub fn height(&self) -> usize {
        self.rows.height
    }

    /// The samples of row `y`, or `None` if there is no such row.
    #[must_use]
    pub fn row(&self, y: usize) -> Option<&'a [T]> {
        // SAFETY: the samples of a region's row exist, next to one another, and are borrowed.
        unsafe { self.rows.row(y) }
    }
}

impl<T: Copy + Default> Region<'_, T> {
    /// Makes a call that reads a rectangle, `width` by `height` samples at column `x` of row `y`.
    /// The call gets only these samples, row by row, and the place of the first.
    ///
    /// # Errors
    ///
    /// `BadArea`: the rectangle does not lie in the region. Then those of the call.
    pub fn call<R>(
        &self,
        room: &mut BlockRoom<T>,
        x: usize,
        y: usize,
        width: usize,
        height: usize,
        call: impl FnOnce(&[T], Place) -> Result<R, Error>,
    ) -> Result<R, Error> {
        let rows = self.rows.within(x, y, width, height)?;
        let block = room.of(rows.count()?);
        // SAFETY: the rows are borrowed to read, and as many samples of the buffer to write.
        unsafe { rows.copy_to(&Rows::of(block, width, height)) };
        call(block, front(width))
    }
}

/// A rectangle of samples to read and write, in rows that are `stride` samples apart. Others may
/// hold what lies between its rows.
#[derive(Debug)]
pub struct RegionMut<'a, T> {
    rows: Rows<T>,
    lent: PhantomData<&'a mut [T]>,
}

// SAFETY: a region borrows its samples, as a slice does, and no others.
unsafe impl<T: Send> Send for RegionMut<'_, T> {}
// SAFETY: as above.
unsafe impl<T: Sync> Sync for RegionMut<'_, T> {}

impl<'a, T> RegionMut<'a, T> {
    /// The rectangle of `width` by `height` samples whose first is `samples[first]`. Each row
    /// begins `stride` samples after the one before, or before it if `stride` is negative. The last
    /// row may end with its own samples.
    ///
    /// # Errors
    ///
    /// `BadArea`: one of its samples is not in `samples`, or its rows overlap.
    pub fn new(
        samples: &'a mut [T],
        first: usize,
        stride: isize,
        width: usize,
        height: usize,
    ) -> Result<RegionMut<'a, T>, Error> {
        if !lies_in(samples.len(), first, stride, width, height) {
            return Err(Error::BadArea);
        }
        let first = samples.as_mut_ptr().wrapping_add(first);
        // SAFETY: all its samples are in the slice, which is borrowed mutably for as long, and its
        // rows don't overlap.
        Ok(unsafe { RegionMut::from_raw_parts(first, stride, width, height) })
    }

    /// The rectangle whose first sample is at `first`, in a plane of which others may hold other
    /// parts. Use it to turn an encoder's own region into one of these.
    ///
    /// # Safety
    ///
    /// During `'a` each sample of the rectangle exists, in one allocation, and nobody else reads or
    /// writes it. No two rows overlap.
    pub unsafe fn from_raw_parts(
        first: *mut T,
        stride: isize,
        width: usize,
        height: usize,
    ) -> RegionMut<'a, T> {
        RegionMut {
            rows: Rows {
                first,
                stride,
                width,
                height,
            },
            lent: PhantomData,
        }
    }

    // A rectangle that lies in this one. The caller makes sure that no two that exist at the same
    // time overlap.
    fn part<'b>(&self, x: usize, y: usize, width: usize, height: usize) -> RegionMut<'b, T> {
        RegionMut {
            rows: self.rows.part(x, y, width, height),
            lent: PhantomData,
        }
    }

    /// How many columns it has.
    #[must_use]
    pub fn width(&self) -> usize {
        self.rows.width
    }

    /// How many rows it has.
    #[must_use]
    pub fn height(&self) -> usize {
        self.rows.height
    }

    /// The same region, borrowed for a shorter time.
    #[must_use]
    pub fn reborrow(&mut self) -> RegionMut<'_, T> {
        self.part(0, 0, self.width(), self.height())
    }

    /// The same region, only to read.
    #[must_use]
    pub fn as_region(&self) -> Region<'_, T> {
        Region {
            rows: self.rows,
            lent: PhantomData,
        }
    }

    /// The first `columns` columns, and the rest.
    ///
    /// # Errors
    ///
    /// `BadArea`: there are fewer.
    pub fn split_columns(
        self,
        columns: usize,
    ) -> Result<(RegionMut<'a, T>, RegionMut<'a, T>), Error> {
        if columns > self.width() {
            return Err(Error::BadArea);
        }
        Ok((
            self.part(0, 0, columns, self.height()),
            self.part(columns, 0, self.width() - columns, self.height()),
        ))
    }

    /// The first `rows` rows, and the rest.
    ///
    /// # Errors
    ///
    /// `BadArea`: there are fewer.
    pub fn split_rows(self, rows: usize) -> Result<(RegionMut<'a, T>, RegionMut<'a, T>), Error> {
        if rows > self.height() {
            return Err(Error::BadArea);
        }
        Ok((
            self.part(0, 0, self.width(), rows),
            self.part(0, rows, self.width(), self.height() - rows),
        ))
    }

    /// The samples of row `y`, or `None` if there is no such row.
    #[must_use]
    pub fn row(&self, y: usize) -> Option<&[T]> {
        self.as_region().row(y)
    }

    /// The samples of row `y`, to write, or `None` if there is no such row.
    #[must_use]
    pub fn row_mut(&mut self, y: usize) -> Option<&mut [T]> {
        if y >= self.height() {
            None
        } else if self.width() == 0 {
            Some(&mut [])
        } else {
            // SAFETY: the samples of a region's row exist, next to one another, and are borrowed
            // mutably for as long.
            Some(unsafe { slice::from_raw_parts_mut(self.rows.at(0, y), self.width()) })
        }
    }
}

impl<T: Copy + Default> RegionMut<'_, T> {
    /// Makes a call on a rectangle, `width` by `height` samples at column `x` of row `y`. The call
    /// gets only these samples, row by row, and the place of the first. If it succeeds, what it
    /// leaves becomes the rectangle.
    ///
    /// # Errors
    ///
    /// `BadArea`: the rectangle does not lie in the region. Then those of the call. The samples are
    /// then unchanged.
    pub fn call<R>(
        &mut self,
        room: &mut BlockRoom<T>,
        x: usize,
        y: usize,
        width: usize,
        height: usize,
        call: impl FnOnce(&mut [T], Place) -> Result<R, Error>,
    ) -> Result<R, Error> {
        let rows = self.rows.within(x, y, width, height)?;
        let block = room.of(rows.count()?);
        // SAFETY: the rows are borrowed to read, and as many samples of the buffer to write.
        unsafe { rows.copy_to(&Rows::of(block, width, height)) };
        self.write(room, x, y, width, height, call)
    }

    /// [`call`](Self::call) for a call that writes all samples of the rectangle and reads none, as
    /// all do except those that add a residual. The call gets arbitrary samples in their place.
    ///
    /// ```
    /// use tilgwaren::{BlockRoom, MotionBlock, Place, RegionMut, put_8tap_8};
    /// let block = MotionBlock { width: 4, height: 4, ..MotionBlock::default() };
    /// let reference = [7; 256];
    /// let mut plane = [0; 16 * 16];
    /// let (mut left, mut right) = RegionMut::new(&mut plane, 0, 16, 16, 16)?.split_columns(8)?;
    /// let from = Place { stride: 16, x: 3, y: 3 };
    /// let put = |samples: &mut [u8], to| put_8tap_8(samples, to, &reference, from, &block);
    /// std::thread::scope(|threads| {
    ///     threads.spawn(|| left.write(&mut BlockRoom::new(), 0, 0, 4, 4, put));
    ///     threads.spawn(|| right.write(&mut BlockRoom::new(), 4, 8, 4, 4, put));
    /// });
    /// # assert_eq!((plane[0], plane[8 * 16 + 12], plane[4]), (7, 7, 0));
    /// # Ok::<(), tilgwaren::Error>(())
    /// ```
    ///
    /// # Errors
    ///
    /// Those of [`call`](Self::call).
    pub fn write<R>(
        &mut self,
        room: &mut BlockRoom<T>,
        x: usize,
        y: usize,
        width: usize,
        height: usize,
        call: impl FnOnce(&mut [T], Place) -> Result<R, Error>,
    ) -> Result<R, Error> {
        let rows = self.rows.within(x, y, width, height)?;
        let block = room.of(rows.count()?);
        let answer = call(block, front(width))?;
        // SAFETY: the rows are borrowed mutably, and as many samples of the buffer to read.
        unsafe { Rows::of(block, width, height).copy_to(&rows) };
        Ok(answer)
    }

    // Writes a rectangle of samples to column `x` of row `y`. Its first sample is `samples[first]`,
    // and its rows are `stride` samples apart.
    pub(crate) fn put(
        &mut self,
        (x, y): (usize, usize),
        (width, height): (usize, usize),
        samples: &[T],
        first: usize,
        stride: usize,
    ) -> Result<(), Error> {
        let from = Region::new(samples, first, stride as isize, width, height)?;
        let to = self.rows.within(x, y, width, height)?;
        // SAFETY: the samples are borrowed to read, and the rows mutably.
        unsafe { from.rows.copy_to(&to) };
        Ok(())
    }
}

// The place of the first of samples without gaps, in rows of this width.
fn front(width: usize) -> Place {
    Place {
        stride: width,
        x: 0,
        y: 0,
    }
}

// Whether `len` samples have a rectangle whose first is number `first`, and no two rows of it
// overlap.
fn lies_in(len: usize, first: usize, stride: isize, width: usize, height: usize) -> bool {
    if width == 0 || height == 0 {
        return true;
    }
    let last = stride as i128 * (height as i128 - 1) + first as i128;
    let ends = [first as i128, last];
    (height == 1 || width <= stride.unsigned_abs())
        && ends
            .iter()
            .all(|row| 0 <= *row && row + width as i128 <= len as i128)
}
