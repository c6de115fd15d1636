//! Why a call failed.

use std::fmt;
use tilgwaren_sys as sys;

/// Why a call failed. What it should have written is then unchanged.
#[derive(Clone, Copy, Debug, PartialEq, Eq)]
#[non_exhaustive]
pub enum Error {
    /// An allocation failed.
    OutOfMemory,
    /// The buffer to write is too short.
    RoomTooSmall {
        /// How many elements it needs.
        needed: usize,
    },
    /// The input is longer than any plan (2^26 bytes).
    TooLong,
    /// The input is not a well-formed plan. Its first bad field is truncated, not valid, or left
    /// over after the end.
    Malformed {
        /// The offset of the field in bytes.
        at: u32,
    },
    /// A leaf is rejected.
    Invalid {
        /// The first leaf that is rejected, counted from 0 in coding order.
        leaf: u32,
        /// Why.
        kind: InvalidKind,
    },
    /// The plan of a part would have more than 2^26 bytes.
    TooLongPart {
        /// The first part that is rejected, counted from 0.
        part: u32,
    },
    /// A part is not a well-formed plan, or not a well-formed list of leaves. Its first bad field
    /// is truncated, not valid, or left over after the end of the part.
    MalformedPart {
        /// The first part that is rejected, counted from 0.
        part: u32,
        /// The offset of the field within the part, in bytes.
        at: u32,
    },
    /// A leaf of a part is rejected.
    InvalidPart {
        /// The first part that is rejected, counted from 0.
        part: u32,
        /// The first leaf of the part that is rejected, counted from 0 in coding order.
        leaf: u32,
        /// Why.
        kind: InvalidKind,
    },
    /// A part shows again the frame of a slot that is empty.
    EmptySlot {
        /// The part, counted from 0.
        part: u32,
    },
    /// A width or height that no block has, or a size that is not allowed here.
    BadSize,
    /// The size of the transform does not allow its type.
    BadType,
    /// Samples of 8 bits have a bit depth other than 8.
    BadDepth,
    /// A rectangle does not lie in its buffer.
    BadArea,
    /// A list has too few elements.
    TooShort,
    /// A coefficient has more bits than the depth allows.
    BadCoefficient,
    /// A sample has more bits than the depth.
    BadSample,
    /// The call does not take this mode.
    BadMode,
    /// The mode does not have this angle.
    BadAngle,
    /// The fraction is not below 16 sixteenths of a sample.
    BadFraction,
    /// Chroma cannot be halved like this.
    BadSampling,
    /// The padding covers the whole block.
    BadPad,
    /// The linked library returned a status that this crate does not know: it is of another
    /// version.
    Unknown {
        /// The status.
        status: u32,
    },
}

/// Why a leaf is rejected.
#[derive(Clone, Copy, Debug, PartialEq, Eq)]
#[non_exhaustive]
pub enum InvalidKind {
    /// Its chroma would have a size that does not exist.
    BlockSize,
    /// The transform is longer than the leaf, or its size does not allow its type.
    Transform,
    /// A mode, an angle step or an alpha that the leaf cannot have.
    Mode,
    /// A motion vector out of range.
    Vector,
    /// A reference to a slot without planes.
    MissingReference,
    /// A coefficient out of order, out of its block or out of range.
    Coefficient,
}

impl fmt::Display for InvalidKind {
    fn fmt(&self, f: &mut fmt::Formatter<'_>) -> fmt::Result {
        f.write_str(match self {
            InvalidKind::BlockSize => "block size",
            InvalidKind::Transform => "transform",
            InvalidKind::Mode => "mode",
            InvalidKind::Vector => "vector",
            InvalidKind::MissingReference => "missing reference",
            InvalidKind::Coefficient => "coefficient",
        })
    }
}

impl fmt::Display for Error {
    fn fmt(&self, f: &mut fmt::Formatter<'_>) -> fmt::Result {
        match self {
            Error::OutOfMemory => f.write_str("out of memory"),
            Error::RoomTooSmall { needed } => write!(f, "buffer too small: it needs {needed}"),
            Error::TooLong => f.write_str("too long"),
            Error::Malformed { at } => write!(f, "malformed at {at}"),
            Error::Invalid { leaf, kind } => write!(f, "invalid leaf {leaf}: {kind}"),
            Error::TooLongPart { part } => write!(f, "part {part}: too long"),
            Error::MalformedPart { part, at } => write!(f, "part {part}: malformed at {at}"),
            Error::InvalidPart { part, leaf, kind } => {
                write!(f, "part {part}: invalid leaf {leaf}: {kind}")
            }
            Error::EmptySlot { part } => write!(f, "part {part}: empty slot"),
            Error::BadSize => f.write_str("no such size here"),
            Error::BadType => f.write_str("no such transform type for this size"),
            Error::BadDepth => f.write_str("samples of 8 bits have no other bit depth"),
            Error::BadArea => f.write_str("rectangle lies outside its buffer"),
            Error::TooShort => f.write_str("list too short"),
            Error::BadCoefficient => f.write_str("coefficient has too many bits for the depth"),
            Error::BadSample => f.write_str("sample has too many bits for the depth"),
            Error::BadMode => f.write_str("the call does not take this mode"),
            Error::BadAngle => f.write_str("mode does not have this angle"),
            Error::BadFraction => f.write_str("fraction of a sample is 16 sixteenths or more"),
            Error::BadSampling => f.write_str("no such chroma sampling"),
            Error::BadPad => f.write_str("padding covers the whole block"),
            Error::Unknown { status } => write!(f, "the library returned status {status}"),
        }
    }
}

impl std::error::Error for Error {}

// What a status means whose reason is a leaf.
fn invalid(status: u32, kind: u32, error: impl FnOnce(InvalidKind) -> Error) -> Error {
    match kind {
        sys::INVALID_BLOCK_SIZE => error(InvalidKind::BlockSize),
        sys::INVALID_TRANSFORM => error(InvalidKind::Transform),
        sys::INVALID_MODE => error(InvalidKind::Mode),
        sys::INVALID_VECTOR => error(InvalidKind::Vector),
        sys::MISSING_REFERENCE => error(InvalidKind::MissingReference),
        sys::INVALID_COEFFICIENT => error(InvalidKind::Coefficient),
        _ => Error::Unknown { status },
    }
}

/// What the status of a call on a plan means.
pub(crate) fn of_plan(status: u32, refusal: &sys::Refusal) -> Result<(), Error> {
    let &sys::Refusal { at, leaf, kind } = refusal;
    match status {
        sys::MALFORMED => Err(Error::Malformed { at }),
        sys::INVALID => Err(invalid(status, kind, |kind| Error::Invalid { leaf, kind })),
        _ => told(status),
    }
}

/// What the status of a call on input with plans as parts means.
pub(crate) fn of_parts(status: u32, refusal: &sys::PartRefusal) -> Result<(), Error> {
    let &sys::PartRefusal {
        part,
        at,
        leaf,
        kind,
    } = refusal;
    match status {
        sys::MALFORMED => Err(Error::Malformed { at }),
        sys::TOO_LONG_PART => Err(Error::TooLongPart { part }),
        sys::MALFORMED_PART => Err(Error::MalformedPart { part, at }),
        sys::INVALID_PART => Err(invalid(status, kind, |kind| Error::InvalidPart {
            part,
            leaf,
            kind,
        })),
        sys::EMPTY_SLOT => Err(Error::EmptySlot { part }),
        _ => told(status),
    }
}

/// What the status of a call without a refusal means.
pub(crate) fn told(status: u32) -> Result<(), Error> {
    Err(match status {
        sys::DONE => return Ok(()),
        sys::OUT_OF_MEMORY => Error::OutOfMemory,
        // Calls on plans say how long their buffer must be; the others write an edge.
        sys::ROOM_TOO_SMALL => Error::RoomTooSmall {
            needed: sys::EDGE_SAMPLES,
        },
        sys::TOO_LONG => Error::TooLong,
        sys::BAD_SIZE => Error::BadSize,
        sys::BAD_TYPE => Error::BadType,
        sys::BAD_DEPTH => Error::BadDepth,
        sys::BAD_AREA => Error::BadArea,
        sys::TOO_SHORT => Error::TooShort,
        sys::BAD_COEFFICIENT => Error::BadCoefficient,
        sys::BAD_SAMPLE => Error::BadSample,
        sys::BAD_MODE => Error::BadMode,
        sys::BAD_ANGLE => Error::BadAngle,
        sys::BAD_FRACTION => Error::BadFraction,
        sys::BAD_SAMPLING => Error::BadSampling,
        sys::BAD_PAD => Error::BadPad,
        _ => Error::Unknown { status },
    })
}
