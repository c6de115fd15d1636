//! AV1 block reconstruction by the library `libtilgwaren.a`, whose calls are proved. `docs/LIBRARY.md`
//! of the repository says how to build or install it, and `docs/PROVED.md` what is proved of its
//! calls.
//!
//! ```no_run
//! let plan = std::fs::read("frame.plan")?;
//! let mut planes = vec![0; tilgwaren::planes_len(&plan)?];
//! let written = tilgwaren::reconstruct_plan(&plan, &mut planes)?;
//! # Ok::<(), Box<dyn std::error::Error>>(())
//! ```
//!
//! The calls write to memory of the caller. The folder `examples` has a program for each family:
//!
//! | family | calls | example |
//! |---|---|---|
//! | whole plans | [`reconstruct_plan`], whose buffer has the length that [`planes_len`] computes | `reconstruct_plan` |
//! | plans field by field | [`PlanBuilder`] | `build_plan` |
//! | a grid of tiles | [`reconstruct_tiles`] | `tiles` |
//! | a sequence of frames | [`reconstruct_sequence`] | `sequence` |
//! | another encoder's planes | [`trace_differences`] lists where they differ from the plan's | `trace` |
//! | single blocks | see below | `blocks` |
//! | tiles of one plane by threads | [`RegionMut`] and [`BlockRoom`], [`predict_in_tile_8`] | `threads` |
//!
//! Calls on a block that end in `_8` are for samples of 8 bits. Each has a form in `_16` for
//! samples of 16 bits, except `put_8tap_8` and `prep_8tap_8`: see Motion.
//!
//! - Residual: [`inverse_transform_add_8`] and [`inverse_transform_add_16`].
//!   [`inverse_transform_add_rav1e_16`] follows rav1e if it differs from AV1. [`coefficients_len`]
//!   finds how many coefficients they need, from the end of the block in AV1's scan order.
//! - Motion: [`put_8tap_8`] predicts a block from one reference. [`prep_8tap_8`] prepares each
//!   block of two references, and [`mc_avg_8`] averages them. [`put_moved_8`] and [`prep_moved_8`]
//!   follow a vector in a plane without padding. A reference of 16 bits is checked once by
//!   [`Tested`]; [`put_tested_16`] and [`prep_tested_16`] then read it without another check.
//! - Intra modes: [`predict_intra_8`] and [`predict_cfl_8`] predict a block from edges that you
//!   pass. [`intra_edge_8`] prepares the edges from a plane. [`predict_in_plane_8`] does both. An
//!   [`IntraEdge`] keeps the edges, to try several modes from them. [`cfl_ac_8`] computes the
//!   differences of luma from its mean that predict chroma.
//!   [`cfl_block_of`] finds its arguments.
//!
//! Widths, heights, `x` and `y` are in samples of the plane, and vectors in eighths of a luma
//! sample, unless a field says otherwise. Structs of arguments have a `Default`: write
//! `..Default::default()` for the fields that you don't set, since later versions can add some.

#![deny(missing_docs, missing_debug_implementations, unsafe_op_in_unsafe_fn)]

mod builder;
mod context;
mod error;
mod intra;
mod intra_edge;
mod luma;
mod motion;
mod numbers;
mod plans;
mod region;
mod tested;
mod tile;
mod transform;

pub use builder::{
    BuildError, Chroma, Coefficient, Field, Header, Leaf, LeafField, Motion, PlanBuilder,
};
pub use context::Context;
pub use error::{Error, InvalidKind};
pub use intra::{
    IntraBlock, predict_cfl_8, predict_cfl_16, predict_in_plane_8, predict_in_plane_16,
    predict_intra_8, predict_intra_16,
};
pub use intra_edge::{EDGE_SAMPLES, EdgeBlock, EdgePlane, IntraEdge, intra_edge_8, intra_edge_16};
pub use luma::{CflBlock, LumaBlock, cfl_ac_8, cfl_ac_16, cfl_block_of};
pub use motion::{
    MotionBlock, MotionPlane, MovedBlock, mc_avg_8, mc_avg_16, prep_8tap_8, prep_moved_8,
    prep_moved_16, put_8tap_8, put_moved_8, put_moved_16,
};
pub use numbers::{
    BitDepth, BlockSize, Filter, Partition, PredictionMode, Reference, Sampling, TxSize, TxType,
    UnknownNumber,
};
pub use plans::{
    Difference, PlaneBytes, planes_len, reconstruct_plan, reconstruct_sequence, reconstruct_tiles,
    trace_differences,
};
pub use region::{BlockRoom, Place, Region, RegionMut};
pub use tested::{Tested, prep_tested_16, put_tested_16};
pub use tile::{predict_in_tile_8, predict_in_tile_16};
pub use transform::{
    TransformBlock, coefficients_len, inverse_transform_add_8, inverse_transform_add_16,
    inverse_transform_add_rav1e_16,
};

/// The version of this crate: major times 65,536, minor times 256, patch.
pub const VERSION: u32 = tilgwaren_sys::VERSION;

/// The version of the linked library, in the form of [`VERSION`]. A library of another minor
/// version does not link.
#[must_use]
pub fn version() -> u32 {
    // SAFETY: the call takes nothing and writes nothing.
    unsafe { tilgwaren_sys::version_0_4() }
}
