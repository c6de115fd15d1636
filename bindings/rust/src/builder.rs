//! Plans built field by field.

use crate::{
    BitDepth, BlockSize, Filter, Partition, PredictionMode, Reference, Sampling, TxSize, TxType,
};
use std::cell::Cell;
use std::fmt;
use std::mem::size_of;
use tilgwaren_sys as sys;

/// The frame of a plan, and what holds for all its leaves. `..Header::default()` gives the rest: a
/// plan of version 3 at depth 8 in 4:2:0, without references, edge filter and visible samples.
#[derive(Clone, Copy, Debug, PartialEq, Eq)]
pub struct Header {
    /// Visible columns of luma: 1 to 2048; up to version 2 a multiple of 8.
    pub width: u16,
    /// Visible rows of luma: 1 to 2048; up to version 2 a multiple of 8.
    pub height: u16,
    /// 1, 2 or 3. Version 2 adds nodes cut into four strips ([`Partition::Horizontal4`],
    /// [`Partition::Vertical4`]), version 3 any width and height and AV1's rules
    /// (`docs/PLAN_FORMAT.md`).
    pub version: u8,
    /// Bits of a sample.
    pub bit_depth: BitDepth,
    /// How many samples chroma has.
    pub sampling: Sampling,
    /// The interpolation filter of motion compensation: any except [`Filter::Rav1eSharp`].
    pub filter: Filter,
    /// Whether intra edges are filtered.
    pub edge_filter: bool,
    /// The slots that carry planes: bit s stands for slot s.
    pub mask: u8,
    /// The slot, 0 to 7, of each reference from LAST to ALTREF.
    pub slots: [u8; 7],
}

impl Default for Header {
    fn default() -> Header {
        Header {
            width: 0,
            height: 0,
            version: 3,
            bit_depth: BitDepth::default(),
            sampling: Sampling::default(),
            filter: Filter::default(),
            edge_filter: false,
            mask: 0,
            slots: [0; 7],
        }
    }
}

/// A coefficient of a leaf in one plane.
#[repr(C)]
#[derive(Clone, Copy, Debug, Default, PartialEq, Eq)]
pub struct Coefficient {
    /// Its value.
    pub value: i32,
    /// Its place in the block's list of coefficients.
    pub place: u16,
    /// The transform block, numbered in raster order over the leaf's rectangle in the plane.
    pub block: u8,
}

// Both have the same fields in the same order.
const _: () = assert!(size_of::<Coefficient>() == size_of::<sys::Coefficient>());

/// A reference and its vector, in eighths of a luma sample.
#[derive(Clone, Copy, Debug, Default, PartialEq, Eq)]
pub struct Motion {
    /// How far down.
    pub mv_y: i16,
    /// How far to the right.
    pub mv_x: i16,
    /// The reference.
    pub reference: Reference,
}

/// The fields of a leaf except its coefficients. `..Leaf::default()` gives the rest: a leaf that is
/// predicted by DC, with transforms `DCT_DCT` of 4x4, without chroma.
#[derive(Clone, Copy, Debug, Default, PartialEq, Eq)]
pub struct Leaf {
    /// The mode of luma, or of the whole leaf if it has references.
    pub mode: PredictionMode,
    /// Without references: steps of 3 degrees on the mode's angle, from -3 to 3.
    pub angle_step: i8,
    /// The reference, or the first of two.
    pub first: Option<Motion>,
    /// The second of two references.
    pub second: Option<Motion>,
    /// The size of the luma transforms.
    pub tx_size: TxSize,
    /// The type of the luma transforms.
    pub tx_type: TxType,
    /// `None` if the leaf carries no chroma.
    pub chroma: Option<Chroma>,
}

/// The chroma of a leaf. The default is predicted by DC, with transforms `DCT_DCT`.
#[derive(Clone, Copy, Debug, Default, PartialEq, Eq)]
pub struct Chroma {
    /// Without references: its mode, up to [`PredictionMode::Cfl`].
    pub mode: PredictionMode,
    /// Steps of 3 degrees on that mode's angle, from -3 to 3.
    pub angle_step: i8,
    /// The weight of chroma from luma for U, in eighths.
    pub alpha_u: i8,
    /// The weight of chroma from luma for V, in eighths.
    pub alpha_v: i8,
    /// The type of the chroma transforms.
    pub tx_type: TxType,
}

impl From<&Header> for sys::PlanHeader {
    fn from(of: &Header) -> sys::PlanHeader {
        sys::PlanHeader {
            width: of.width,
            height: of.height,
            version: of.version,
            bit_depth: of.bit_depth.into(),
            sampling: of.sampling.into(),
            filter: of.filter.into(),
            edge_filter: of.edge_filter.into(),
            mask: of.mask,
            slots: of.slots,
        }
    }
}

impl From<Motion> for sys::Motion {
    fn from(of: Motion) -> sys::Motion {
        sys::Motion {
            mv_y: of.mv_y,
            mv_x: of.mv_x,
            reference: of.reference.into(),
        }
    }
}

impl From<&Leaf> for sys::Leaf {
    fn from(of: &Leaf) -> sys::Leaf {
        let chroma = of.chroma.unwrap_or_default();
        sys::Leaf {
            first: of.first.map(Into::into).unwrap_or_default(),
            second: of.second.map(Into::into).unwrap_or_default(),
            mode: of.mode.into(),
            angle_step: of.angle_step,
            has_chroma: of.chroma.is_some().into(),
            chroma_mode: chroma.mode.into(),
            chroma_angle_step: chroma.angle_step,
            alpha_u: chroma.alpha_u,
            alpha_v: chroma.alpha_v,
            tx_size: of.tx_size.into(),
            tx_type: of.tx_type.into(),
            chroma_tx_type: chroma.tx_type.into(),
        }
    }
}

/// A field of a leaf that can be rejected, in the order in which they are tested.
#[derive(Clone, Copy, Debug, PartialEq, Eq)]
#[non_exhaustive]
pub enum LeafField {
    /// [`Leaf::chroma`] is there though the leaf carries none, or missing though it carries chroma.
    HasChroma,
    /// [`Leaf::mode`].
    Mode,
    /// [`Chroma::mode`].
    ChromaMode,
    /// [`Leaf::first`].
    First,
    /// [`Leaf::second`].
    Second,
    /// A plane has more than 65,535 coefficients, or chroma has some that the leaf does not carry.
    Coefficients,
}

impl LeafField {
    // The field of a number. Numbers of transforms come from enumerations, so they are in range.
    fn of(number: u32) -> Option<LeafField> {
        Some(match number {
            sys::FIELD_HAS_CHROMA => LeafField::HasChroma,
            sys::FIELD_MODE => LeafField::Mode,
            sys::FIELD_CHROMA_MODE => LeafField::ChromaMode,
            sys::FIELD_FIRST => LeafField::First,
            sys::FIELD_SECOND => LeafField::Second,
            sys::FIELD_COEFFICIENTS => LeafField::Coefficients,
            _ => return None,
        })
    }
}

impl fmt::Display for LeafField {
    fn fmt(&self, f: &mut fmt::Formatter<'_>) -> fmt::Result {
        f.write_str(match self {
            LeafField::HasChroma => "presence of chroma",
            LeafField::Mode => "mode",
            LeafField::ChromaMode => "mode of chroma",
            LeafField::First => "first reference",
            LeafField::Second => "second reference",
            LeafField::Coefficients => "number of coefficients",
        })
    }
}

/// Why a call of a builder failed. The builder is then unchanged.
#[derive(Clone, Copy, Debug, PartialEq, Eq)]
#[non_exhaustive]
pub enum BuildError {
    /// The plan expects another kind of field next: [`PlanBuilder::next_field`] says which.
    NotNow,
    /// An argument has a value that is not valid here.
    NotAdmitted,
    /// A field of the leaf has a value that is not valid here.
    BadField {
        /// The first such field.
        field: LeafField,
    },
    /// The plan would have more than 2^26 bytes.
    TooLong,
    /// An allocation failed.
    OutOfMemory,
    /// The linked library returned a status that this crate does not know: it is of another
    /// version.
    Unknown {
        /// The status.
        status: u32,
    },
}

impl fmt::Display for BuildError {
    fn fmt(&self, f: &mut fmt::Formatter<'_>) -> fmt::Result {
        match self {
            BuildError::NotNow => f.write_str("the plan expects another kind of field next"),
            BuildError::NotAdmitted => {
                f.write_str("an argument has a value that is not valid here")
            }
            BuildError::BadField { field } => write!(f, "the leaf cannot have this {field}"),
            BuildError::TooLong => f.write_str("too long"),
            BuildError::OutOfMemory => f.write_str("out of memory"),
            BuildError::Unknown { status } => write!(f, "the library returned status {status}"),
        }
    }
}

impl std::error::Error for BuildError {}

// What a status means.
fn told(status: u32) -> Result<(), BuildError> {
    Err(match status {
        sys::DONE => return Ok(()),
        sys::NOT_NOW => BuildError::NotNow,
        sys::NOT_ADMITTED => BuildError::NotAdmitted,
        sys::TOO_LONG => BuildError::TooLong,
        _ => BuildError::Unknown { status },
    })
}

/// The field that a plan expects next. Positions are those of the first sample, in luma samples.
#[derive(Clone, Copy, Debug, PartialEq, Eq)]
#[non_exhaustive]
pub enum Field {
    /// The planes of a slot: [`PlanBuilder::reference`].
    Reference {
        /// The slot, 0 to 7.
        slot: usize,
    },
    /// The mark of a square node: [`PlanBuilder::mark`].
    Mark {
        /// The column.
        x: u16,
        /// The row.
        y: u16,
        /// Its size: 64x64, 32x32, 16x16 or 8x8.
        size: BlockSize,
    },
    /// A leaf: [`PlanBuilder::leaf`].
    Leaf {
        /// The column.
        x: u16,
        /// The row.
        y: u16,
        /// Its size.
        size: BlockSize,
    },
    /// Nothing: [`PlanBuilder::finish`] returns the plan.
    End,
}

/// Writes a plan field by field.
///
/// ```
/// use tilgwaren::{Chroma, Header, Leaf, Partition, PlanBuilder, Sampling, TxSize};
/// let header = Header { width: 8, height: 8, sampling: Sampling::Yuv444, ..Header::default() };
/// let mut builder = PlanBuilder::new(&header)?;
/// builder.mark(Partition::Split)?; // of the superblock: 64x64, then its first node of 32x32, ..
/// # builder.mark(Partition::Split)?;
/// # builder.mark(Partition::Split)?;
/// builder.mark(Partition::None)?; // the node of 8x8 is one leaf
/// let leaf = Leaf { tx_size: TxSize::T8x8, chroma: Some(Chroma::default()), ..Leaf::default() };
/// builder.leaf(&leaf, &[], &[], &[])?;
/// let plan = builder.finish()?;
/// # Ok::<(), tilgwaren::BuildError>(())
/// ```
///
/// 1. [`PlanBuilder::new`] gives the header.
/// 2. [`PlanBuilder::reference`] gives the planes of each slot that the mask names, in rising order.
/// 3. For each superblock, [`PlanBuilder::mark`] gives the mark of each node before its parts, and
///    [`PlanBuilder::leaf`] each leaf. Parts that begin outside the frame are left out.
/// 4. [`PlanBuilder::finish`] returns the bytes.
///
/// To be able to go back, keep a clone.
#[derive(Clone, Debug)]
pub struct PlanBuilder {
    builder: sys::Builder,
    // The bytes of the plan, `builder.written` of them, and room for more.
    room: Vec<u8>,
}

impl PlanBuilder {
    /// Begins a plan with this header: its first 20 bytes.
    ///
    /// # Errors
    ///
    /// `NotAdmitted`.
    pub fn new(header: &Header) -> Result<PlanBuilder, BuildError> {
        let mut empty = PlanBuilder {
            builder: sys::Builder::default(),
            room: Vec::new(),
        };
        // SAFETY: pointer and length come from one mutably borrowed slice; header and builder are
        // two values.
        empty.append(|builder, room, len| unsafe {
            sys::builder_begin(builder, room, len, &header.into())
        })?;
        Ok(empty)
    }

    // Makes a call that appends to the plan, again in a longer buffer as long as it says that the
    // buffer is too short. The bytes past those written are zeros or of no use.
    fn append(
        &mut self,
        call: impl Fn(&mut sys::Builder, *mut u8, usize) -> u32,
    ) -> Result<(), BuildError> {
        loop {
            let status = call(&mut self.builder, self.room.as_mut_ptr(), self.room.len());
            if status != sys::ROOM_TOO_SMALL {
                return told(status);
            }
            let more = self.room.len().max(1024);
            let made = self.room.try_reserve(more);
            made.map_err(|_| BuildError::OutOfMemory)?;
            self.room.resize(self.room.len() + more, 0);
        }
    }

    /// The field that the plan expects next.
    #[must_use]
    pub fn next_field(&self) -> Field {
        let mut next = sys::NextField::default();
        // SAFETY: each pointer leads to one value, `next` borrowed mutably.
        let status = unsafe { sys::builder_next(&mut next, &self.builder) };
        debug_assert_eq!(status, sys::DONE);
        let (x, y) = (next.x, next.y);
        let size = BlockSize::try_from(next.size).unwrap_or_default();
        match next.kind {
            sys::NEXT_REFERENCE => Field::Reference { slot: next.slot },
            sys::NEXT_MARK => Field::Mark { x, y, size },
            sys::NEXT_LEAF => Field::Leaf { x, y, size },
            _ => Field::End,
        }
    }

    /// The bytes of the plan so far.
    #[must_use]
    pub fn written(&self) -> &[u8] {
        &self.room[..self.builder.written]
    }

    /// Gives the planes of the next slot in the mask, each row by row.
    ///
    /// # Errors
    ///
    /// `NotNow` if the plan does not expect planes. `NotAdmitted` if a plane has the wrong number of
    /// samples, or a sample is not below `1 << depth`. Then `TooLong`, then `OutOfMemory`.
    pub fn reference(&mut self, y: &[u16], u: &[u16], v: &[u16]) -> Result<(), BuildError> {
        // SAFETY: pointers and lengths come from borrowed slices, the buffer borrowed mutably.
        self.append(|builder, room, len| unsafe {
            sys::builder_reference(
                builder,
                room,
                len,
                y.as_ptr(),
                y.len(),
                u.as_ptr(),
                u.len(),
                v.as_ptr(),
                v.len(),
            )
        })
    }

    /// Gives the mark of the next node.
    ///
    /// # Errors
    ///
    /// `NotNow` if the plan does not expect a mark. `NotAdmitted` if the node cannot have this mark.
    /// Then `TooLong`, then `OutOfMemory`.
    pub fn mark(&mut self, mark: Partition) -> Result<(), BuildError> {
        // SAFETY: pointer and length come from one mutably borrowed slice.
        self.append(|builder, room, len| unsafe {
            sys::builder_mark(builder, room, len, mark.into())
        })
    }

    /// Gives the next leaf, with its coefficients in Y, U and V. Its size and its position follow
    /// from the marks.
    ///
    /// # Errors
    ///
    /// `NotNow` if the plan does not expect a leaf. `BadField` if a field of the leaf is not valid
    /// here. Then `TooLong`, then `OutOfMemory`.
    pub fn leaf(
        &mut self,
        leaf: &Leaf,
        y: &[Coefficient],
        u: &[Coefficient],
        v: &[Coefficient],
    ) -> Result<(), BuildError> {
        let leaf = sys::Leaf::from(leaf);
        let field = Cell::new(0);
        // SAFETY: pointers and lengths come from borrowed slices, the buffer borrowed mutably; the
        // field is a local. Coefficients are laid out as the call's.
        let given = self.append(|builder, room, len| unsafe {
            sys::builder_leaf(
                builder,
                room,
                len,
                field.as_ptr(),
                &leaf,
                y.as_ptr().cast(),
                y.len(),
                u.as_ptr().cast(),
                u.len(),
                v.as_ptr().cast(),
                v.len(),
            )
        });
        given.map_err(|error| match (error, LeafField::of(field.get())) {
            (BuildError::NotAdmitted, Some(field)) => BuildError::BadField { field },
            _ => error,
        })
    }

    /// Returns the bytes of the plan.
    ///
    /// # Errors
    ///
    /// `NotNow` if a field is still missing.
    pub fn finish(mut self) -> Result<Vec<u8>, BuildError> {
        if self.next_field() != Field::End {
            return Err(BuildError::NotNow);
        }
        self.room.truncate(self.builder.written);
        Ok(self.room)
    }
}
