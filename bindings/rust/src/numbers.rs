//! The numbers of plans and calls, as enumerations.

use std::error::Error;
use std::fmt;

/// No variant of an enumeration has this number.
#[derive(Clone, Copy, Debug, PartialEq, Eq)]
pub struct UnknownNumber {
    of: &'static str,
    number: u8,
}

impl fmt::Display for UnknownNumber {
    fn fmt(&self, f: &mut fmt::Formatter<'_>) -> fmt::Result {
        write!(f, "no {} has the number {}", self.of, self.number)
    }
}

impl Error for UnknownNumber {}

// An enumeration, whose variants have numbers and AV1's names.
macro_rules! numbers {
    ($(#[$about:meta])* $name:ident: $first:ident = $zero:literal $called:literal, $($variant:ident = $number:literal $name_in_av1:literal,)*) => {
        $(#[$about])*
        #[derive(Clone, Copy, Debug, Default, PartialEq, Eq, PartialOrd, Ord, Hash)]
        #[repr(u8)]
        pub enum $name {
            #[doc = concat!("`", $called, "`.")]
            #[default]
            $first = $zero,
            $(#[doc = concat!("`", $name_in_av1, "`.")] $variant = $number,)*
        }

        impl $name {
            /// All of them, in the order of their numbers.
            pub const ALL: &'static [$name] = &[$name::$first, $($name::$variant),*];
        }

        impl fmt::Display for $name {
            /// Writes AV1's name.
            fn fmt(&self, f: &mut fmt::Formatter<'_>) -> fmt::Result {
                f.write_str(match self {
                    $name::$first => $called,
                    $($name::$variant => $name_in_av1,)*
                })
            }
        }

        impl From<$name> for u8 {
            fn from(of: $name) -> u8 {
                of as u8
            }
        }

        impl TryFrom<u8> for $name {
            type Error = UnknownNumber;

            fn try_from(number: u8) -> Result<$name, UnknownNumber> {
                match number {
                    $zero => Ok($name::$first),
                    $($number => Ok($name::$variant),)*
                    _ => Err(UnknownNumber { of: stringify!($name), number }),
                }
            }
        }
    };
}

numbers! {
    /// The bits of a sample.
    BitDepth: Eight = 8 "8 bits", Ten = 10 "10 bits", Twelve = 12 "12 bits",
}

numbers! {
    /// How many samples chroma has.
    Sampling: Yuv420 = 0 "4:2:0", Yuv422 = 1 "4:2:2", Yuv444 = 2 "4:4:4",
}

impl Sampling {
    /// Whether chroma has half of luma's columns.
    #[must_use]
    pub fn halves_columns(self) -> bool {
        self != Sampling::Yuv444
    }

    /// Whether chroma has half of luma's rows.
    #[must_use]
    pub fn halves_rows(self) -> bool {
        self == Sampling::Yuv420
    }
}

numbers! {
    /// The size of a block: columns by rows of samples.
    BlockSize:
    B4x4 = 0 "BLOCK_4X4", B4x8 = 1 "BLOCK_4X8", B8x4 = 2 "BLOCK_8X4", B8x8 = 3 "BLOCK_8X8",
    B8x16 = 4 "BLOCK_8X16", B16x8 = 5 "BLOCK_16X8", B16x16 = 6 "BLOCK_16X16",
    B16x32 = 7 "BLOCK_16X32", B32x16 = 8 "BLOCK_32X16", B32x32 = 9 "BLOCK_32X32",
    B32x64 = 10 "BLOCK_32X64", B64x32 = 11 "BLOCK_64X32", B64x64 = 12 "BLOCK_64X64",
    B64x128 = 13 "BLOCK_64X128", B128x64 = 14 "BLOCK_128X64", B128x128 = 15 "BLOCK_128X128",
    B4x16 = 16 "BLOCK_4X16", B16x4 = 17 "BLOCK_16X4", B8x32 = 18 "BLOCK_8X32",
    B32x8 = 19 "BLOCK_32X8", B16x64 = 20 "BLOCK_16X64", B64x16 = 21 "BLOCK_64X16",
}

impl BlockSize {
    /// How many columns of samples it has.
    #[must_use]
    pub fn width(self) -> usize {
        const WIDTHS: [u8; 22] = [
            4, 4, 8, 8, 8, 16, 16, 16, 32, 32, 32, 64, 64, 64, 128, 128, 4, 16, 8, 32, 16, 64,
        ];
        usize::from(WIDTHS[self as usize])
    }

    /// How many rows of samples it has.
    #[must_use]
    pub fn height(self) -> usize {
        const HEIGHTS: [u8; 22] = [
            4, 8, 4, 8, 16, 8, 16, 32, 16, 32, 64, 32, 64, 128, 64, 128, 16, 4, 32, 8, 64, 16,
        ];
        usize::from(HEIGHTS[self as usize])
    }
}

numbers! {
    /// The size of a transform: columns by rows of samples.
    TxSize:
    T4x4 = 0 "TX_4X4", T8x8 = 1 "TX_8X8", T16x16 = 2 "TX_16X16", T32x32 = 3 "TX_32X32",
    T64x64 = 4 "TX_64X64", T4x8 = 5 "TX_4X8", T8x4 = 6 "TX_8X4", T8x16 = 7 "TX_8X16",
    T16x8 = 8 "TX_16X8", T16x32 = 9 "TX_16X32", T32x16 = 10 "TX_32X16", T32x64 = 11 "TX_32X64",
    T64x32 = 12 "TX_64X32", T4x16 = 13 "TX_4X16", T16x4 = 14 "TX_16X4", T8x32 = 15 "TX_8X32",
    T32x8 = 16 "TX_32X8", T16x64 = 17 "TX_16X64", T64x16 = 18 "TX_64X16",
}

impl TxSize {
    /// How many columns of samples it has.
    #[must_use]
    pub fn width(self) -> usize {
        const WIDTHS: [u8; 19] = [
            4, 8, 16, 32, 64, 4, 8, 8, 16, 16, 32, 32, 64, 4, 16, 8, 32, 16, 64,
        ];
        usize::from(WIDTHS[self as usize])
    }

    /// How many rows of samples it has.
    #[must_use]
    pub fn height(self) -> usize {
        const HEIGHTS: [u8; 19] = [
            4, 8, 16, 32, 64, 8, 4, 16, 8, 32, 16, 64, 32, 16, 4, 32, 8, 64, 16,
        ];
        usize::from(HEIGHTS[self as usize])
    }
}

numbers! {
    /// The type of a transform: first down columns, then along rows.
    TxType:
    DctDct = 0 "DCT_DCT", AdstDct = 1 "ADST_DCT", DctAdst = 2 "DCT_ADST", AdstAdst = 3 "ADST_ADST",
    FlipAdstDct = 4 "FLIPADST_DCT", DctFlipAdst = 5 "DCT_FLIPADST",
    FlipAdstFlipAdst = 6 "FLIPADST_FLIPADST", AdstFlipAdst = 7 "ADST_FLIPADST",
    FlipAdstAdst = 8 "FLIPADST_ADST", Identity = 9 "IDTX", VDct = 10 "V_DCT", HDct = 11 "H_DCT",
    VAdst = 12 "V_ADST", HAdst = 13 "H_ADST", VFlipAdst = 14 "V_FLIPADST",
    HFlipAdst = 15 "H_FLIPADST", WhtWht = 16 "WHT_WHT",
}

numbers! {
    /// How a block is predicted: from its own frame (up to [`Cfl`](Self::Cfl)), from one reference
    /// (up to [`New`](Self::New)) or from two.
    PredictionMode:
    Dc = 0 "DC_PRED", V = 1 "V_PRED", H = 2 "H_PRED", D45 = 3 "D45_PRED", D135 = 4 "D135_PRED",
    D113 = 5 "D113_PRED", D157 = 6 "D157_PRED", D203 = 7 "D203_PRED", D67 = 8 "D67_PRED",
    Smooth = 9 "SMOOTH_PRED", SmoothV = 10 "SMOOTH_V_PRED", SmoothH = 11 "SMOOTH_H_PRED",
    Paeth = 12 "PAETH_PRED", Cfl = 13 "UV_CFL_PRED", Nearest = 14 "NEARESTMV",
    Near0 = 15 "NEAR0MV", Near1 = 16 "NEAR1MV", Near2 = 17 "NEAR2MV", Global = 18 "GLOBALMV",
    New = 19 "NEWMV", NearestNearest = 20 "NEAREST_NEARESTMV", NearNear0 = 21 "NEAR_NEAR0MV",
    NearNear1 = 22 "NEAR_NEAR1MV", NearNear2 = 23 "NEAR_NEAR2MV",
    NearestNew = 24 "NEAREST_NEWMV", NewNearest = 25 "NEW_NEARESTMV", NearNew0 = 26 "NEAR_NEW0MV",
    NearNew1 = 27 "NEAR_NEW1MV", NearNew2 = 28 "NEAR_NEW2MV", NewNear0 = 29 "NEW_NEAR0MV",
    NewNear1 = 30 "NEW_NEAR1MV", NewNear2 = 31 "NEW_NEAR2MV",
    GlobalGlobal = 32 "GLOBAL_GLOBALMV", NewNew = 33 "NEW_NEWMV",
}

numbers! {
    /// A filter of motion compensation. Along a dimension of at most 4 samples, `Sharp` is the
    /// regular filter for such dimensions, as in AV1. `Rav1eSharp` is the smooth one there, as in
    /// rav1e and in plans up to version 2.
    #[non_exhaustive]
    Filter:
    Regular = 0 "EIGHTTAP", Smooth = 1 "EIGHTTAP_SMOOTH", Sharp = 2 "EIGHTTAP_SHARP",
    Bilinear = 3 "BILINEAR", Rav1eSharp = 5 "EIGHTTAP_SHARP of rav1e",
}

numbers! {
    /// How a node of the partition tree is cut.
    Partition:
    None = 0 "PARTITION_NONE", Horizontal = 1 "PARTITION_HORZ", Vertical = 2 "PARTITION_VERT",
    Split = 3 "PARTITION_SPLIT", Horizontal4 = 8 "PARTITION_HORZ_4",
    Vertical4 = 9 "PARTITION_VERT_4",
}

numbers! {
    /// One of the seven references of a frame.
    Reference:
    Last = 1 "LAST_FRAME", Last2 = 2 "LAST2_FRAME", Last3 = 3 "LAST3_FRAME",
    Golden = 4 "GOLDEN_FRAME", BwdRef = 5 "BWDREF_FRAME", AltRef2 = 6 "ALTREF2_FRAME",
    AltRef = 7 "ALTREF_FRAME",
}
