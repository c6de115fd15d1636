//! The calls of the library `libtilgwaren.a`, as C has them. `tilgwaren.h` documents each one.
//!
//! Functions and structs have C's names without the prefix. Use the crate `tilgwaren`, whose calls are
//! safe, unless you need pointers. `bindings/declared.py` writes this file.

use std::mem::size_of;

#[cfg(not(target_pointer_width = "64"))]
compile_error!("the library is code for Linux on x86-64 or ARM64, with pointers of 64 bits");

pub const EDGE_SAMPLES: usize = 257;
pub const ANY_MODE: u8 = 255;
pub const FROM_LUMA: u8 = 13;
pub const SHARP: u8 = 2;
pub const RAV1E_SHARP: u8 = 5;
pub const DONE: u32 = 0;
pub const ROOM_TOO_SMALL: u32 = 2;
pub const BAD_SIZE: u32 = 6;
pub const BAD_TYPE: u32 = 7;
pub const BAD_DEPTH: u32 = 8;
pub const BAD_AREA: u32 = 9;
pub const TOO_SHORT: u32 = 10;
pub const BAD_COEFFICIENT: u32 = 11;
pub const BAD_SAMPLE: u32 = 12;
pub const BAD_MODE: u32 = 13;
pub const BAD_ANGLE: u32 = 14;
pub const BAD_FRACTION: u32 = 15;
pub const BAD_SAMPLING: u32 = 16;
pub const BAD_PAD: u32 = 17;
pub const OUT_OF_MEMORY: u32 = 1;
pub const TOO_LONG: u32 = 3;
pub const MALFORMED: u32 = 4;
pub const INVALID: u32 = 5;
pub const TOO_LONG_PART: u32 = 30;
pub const MALFORMED_PART: u32 = 31;
pub const INVALID_PART: u32 = 32;
pub const EMPTY_SLOT: u32 = 33;
pub const NOT_NOW: u32 = 40;
pub const NOT_ADMITTED: u32 = 41;
pub const BAD_STATE: u32 = 42;
pub const INVALID_BLOCK_SIZE: u32 = 1;
pub const INVALID_TRANSFORM: u32 = 2;
pub const INVALID_MODE: u32 = 3;
pub const INVALID_VECTOR: u32 = 4;
pub const MISSING_REFERENCE: u32 = 5;
pub const INVALID_COEFFICIENT: u32 = 6;
pub const NEXT_NOTHING: u8 = 0;
pub const NEXT_REFERENCE: u8 = 1;
pub const NEXT_MARK: u8 = 2;
pub const NEXT_LEAF: u8 = 3;
pub const FIELD_TX_SIZE: u32 = 1;
pub const FIELD_TX_TYPE: u32 = 2;
pub const FIELD_CHROMA_TX_TYPE: u32 = 3;
pub const FIELD_HAS_CHROMA: u32 = 4;
pub const FIELD_MODE: u32 = 5;
pub const FIELD_CHROMA_MODE: u32 = 6;
pub const FIELD_FIRST: u32 = 7;
pub const FIELD_SECOND: u32 = 8;
pub const FIELD_COEFFICIENTS: u32 = 9;
pub const VERSION: u32 = 1024;

/// `tilg_context`.
#[repr(C, align(64))]
#[derive(Clone, Debug)]
pub struct Context {
    pub words: [i32; 19813],
}

/// `tilg_luma_block`.
#[repr(C)]
#[derive(Clone, Copy, Debug, Default, PartialEq, Eq)]
pub struct LumaBlock {
    pub block_size: u8,
    pub tx_size: u8,
    pub halved_columns: u8,
    pub halved_rows: u8,
    pub visible_columns: usize,
    pub visible_rows: usize,
}
const _: () = assert!(size_of::<LumaBlock>() == 24);

/// `tilg_intra_block`.
#[repr(C)]
#[derive(Clone, Copy, Debug, Default, PartialEq, Eq)]
pub struct IntraBlock {
    pub mode: u8,
    pub tx_size: u8,
    pub angle_step: i8,
    pub bit_depth: u8,
    pub has_left: u8,
    pub has_above: u8,
    pub edge_filter: u8,
    pub smooth_neighbour: u8,
    pub visible_columns: usize,
    pub visible_rows: usize,
}
const _: () = assert!(size_of::<IntraBlock>() == 24);

/// `tilg_edge_plane`.
#[repr(C)]
#[derive(Clone, Copy, Debug, Default, PartialEq, Eq)]
pub struct EdgePlane {
    pub stride: usize,
    pub x: usize,
    pub y: usize,
    pub width: usize,
    pub height: usize,
    pub tile_x: usize,
    pub tile_y: usize,
    pub tile_width: usize,
    pub tile_height: usize,
    pub halved_columns: u8,
    pub halved_rows: u8,
}
const _: () = assert!(size_of::<EdgePlane>() == 80);

/// `tilg_edge_block`.
#[repr(C)]
#[derive(Clone, Copy, Debug, Default, PartialEq, Eq)]
pub struct EdgeBlock {
    pub x: usize,
    pub y: usize,
    pub cell_x: usize,
    pub cell_y: usize,
    pub unit_x: usize,
    pub unit_y: usize,
    pub block_size: u8,
    pub tx_size: u8,
    pub mode: u8,
    pub angle_step: i8,
    pub bit_depth: u8,
    pub edge_filter: u8,
}
const _: () = assert!(size_of::<EdgeBlock>() == 56);

/// `tilg_cfl_block`.
#[repr(C)]
#[derive(Clone, Copy, Debug, Default, PartialEq, Eq)]
pub struct CflBlock {
    pub block_size: u8,
    pub halved_columns: u8,
    pub halved_rows: u8,
    pub w_pad: usize,
    pub h_pad: usize,
}
const _: () = assert!(size_of::<CflBlock>() == 24);

/// `tilg_motion_block`.
#[repr(C)]
#[derive(Clone, Copy, Debug, Default, PartialEq, Eq)]
pub struct MotionBlock {
    pub width: usize,
    pub height: usize,
    pub fraction_x: u8,
    pub fraction_y: u8,
    pub filter_x: u8,
    pub filter_y: u8,
}
const _: () = assert!(size_of::<MotionBlock>() == 24);

/// `tilg_motion_plane`.
#[repr(C)]
#[derive(Clone, Copy, Debug, Default, PartialEq, Eq)]
pub struct MotionPlane {
    pub stride: usize,
    pub x: usize,
    pub y: usize,
    pub width: usize,
    pub height: usize,
    pub halved_columns: u8,
    pub halved_rows: u8,
}
const _: () = assert!(size_of::<MotionPlane>() == 48);

/// `tilg_moved_block`.
#[repr(C)]
#[derive(Clone, Copy, Debug, Default, PartialEq, Eq)]
pub struct MovedBlock {
    pub x: usize,
    pub y: usize,
    pub width: usize,
    pub height: usize,
    pub mv_y: i16,
    pub mv_x: i16,
    pub filter_x: u8,
    pub filter_y: u8,
}
const _: () = assert!(size_of::<MovedBlock>() == 40);

/// `tilg_next_field`.
#[repr(C)]
#[derive(Clone, Copy, Debug, Default, PartialEq, Eq)]
pub struct NextField {
    pub slot: usize,
    pub kind: u8,
    pub size: u8,
    pub x: u16,
    pub y: u16,
}
const _: () = assert!(size_of::<NextField>() == 16);

/// `tilg_builder_part`.
#[repr(C)]
#[derive(Clone, Copy, Debug, Default, PartialEq, Eq)]
pub struct BuilderPart {
    pub kind: u8,
    pub number: u8,
    pub x: u16,
    pub y: u16,
}
const _: () = assert!(size_of::<BuilderPart>() == 6);

/// `tilg_builder`.
#[repr(C)]
#[derive(Clone, Copy, Debug, Default, PartialEq, Eq)]
pub struct Builder {
    pub written: usize,
    pub slot: usize,
    pub count: usize,
    pub superblock_y: u16,
    pub superblock_x: u16,
    pub header: PlanHeader,
    pub parts: [BuilderPart; 13],
}
const _: () = assert!(size_of::<Builder>() == 128);

/// `tilg_difference`.
#[repr(C)]
#[derive(Clone, Copy, Debug, Default, PartialEq, Eq)]
pub struct Difference {
    pub leaf: u32,
    pub y: u16,
    pub x: u16,
    pub given: u16,
    pub defined: u16,
    pub plane: u8,
}
const _: () = assert!(size_of::<Difference>() == 16);

/// `tilg_refusal`.
#[repr(C)]
#[derive(Clone, Copy, Debug, Default, PartialEq, Eq)]
pub struct Refusal {
    pub at: u32,
    pub leaf: u32,
    pub kind: u32,
}
const _: () = assert!(size_of::<Refusal>() == 12);

/// `tilg_coefficient`.
#[repr(C)]
#[derive(Clone, Copy, Debug, Default, PartialEq, Eq)]
pub struct Coefficient {
    pub value: i32,
    pub place: u16,
    pub block: u8,
}
const _: () = assert!(size_of::<Coefficient>() == 8);

/// `tilg_motion`.
#[repr(C)]
#[derive(Clone, Copy, Debug, Default, PartialEq, Eq)]
pub struct Motion {
    pub mv_y: i16,
    pub mv_x: i16,
    pub reference: u8,
}
const _: () = assert!(size_of::<Motion>() == 6);

/// `tilg_leaf`.
#[repr(C)]
#[derive(Clone, Copy, Debug, Default, PartialEq, Eq)]
pub struct Leaf {
    pub first: Motion,
    pub second: Motion,
    pub mode: u8,
    pub angle_step: i8,
    pub has_chroma: u8,
    pub chroma_mode: u8,
    pub chroma_angle_step: i8,
    pub alpha_u: i8,
    pub alpha_v: i8,
    pub tx_size: u8,
    pub tx_type: u8,
    pub chroma_tx_type: u8,
}
const _: () = assert!(size_of::<Leaf>() == 22);

/// `tilg_part_refusal`.
#[repr(C)]
#[derive(Clone, Copy, Debug, Default, PartialEq, Eq)]
pub struct PartRefusal {
    pub part: u32,
    pub at: u32,
    pub leaf: u32,
    pub kind: u32,
}
const _: () = assert!(size_of::<PartRefusal>() == 16);

/// `tilg_plan_header`.
#[repr(C)]
#[derive(Clone, Copy, Debug, Default, PartialEq, Eq)]
pub struct PlanHeader {
    pub width: u16,
    pub height: u16,
    pub version: u8,
    pub bit_depth: u8,
    pub sampling: u8,
    pub filter: u8,
    pub edge_filter: u8,
    pub mask: u8,
    pub slots: [u8; 7],
}
const _: () = assert!(size_of::<PlanHeader>() == 18);

extern "C" {
    #[link_name = "tilg_builder_begin"]
    pub fn builder_begin(
        builder: *mut Builder,
        room: *mut u8,
        room_len: usize,
        header: *const PlanHeader,
    ) -> u32;

    #[link_name = "tilg_builder_reference"]
    pub fn builder_reference(
        builder: *mut Builder,
        room: *mut u8,
        room_len: usize,
        y: *const u16,
        y_len: usize,
        u: *const u16,
        u_len: usize,
        v: *const u16,
        v_len: usize,
    ) -> u32;

    #[link_name = "tilg_builder_mark"]
    pub fn builder_mark(builder: *mut Builder, room: *mut u8, room_len: usize, mark: u8) -> u32;

    #[link_name = "tilg_builder_leaf"]
    pub fn builder_leaf(
        builder: *mut Builder,
        room: *mut u8,
        room_len: usize,
        field: *mut u32,
        leaf: *const Leaf,
        y: *const Coefficient,
        y_len: usize,
        u: *const Coefficient,
        u_len: usize,
        v: *const Coefficient,
        v_len: usize,
    ) -> u32;

    #[link_name = "tilg_builder_next"]
    pub fn builder_next(next: *mut NextField, builder: *const Builder) -> u32;

    #[link_name = "tilg_trace_differences"]
    pub fn trace_differences(
        room: *mut Difference,
        room_len: usize,
        found: *mut usize,
        refusal: *mut Refusal,
        bytes: *const u8,
        bytes_len: usize,
        y: *const u8,
        y_len: usize,
        y_stride: usize,
        u: *const u8,
        u_len: usize,
        u_stride: usize,
        v: *const u8,
        v_len: usize,
        v_stride: usize,
    ) -> u32;

    #[link_name = "tilg_predict_intra_8"]
    pub fn predict_intra_8(
        samples: *mut u8,
        samples_len: usize,
        stride: usize,
        x: usize,
        y: usize,
        block: *const IntraBlock,
        left: *const u8,
        left_len: usize,
        corner: u8,
        above: *const u8,
        above_len: usize,
    ) -> u32;

    #[link_name = "tilg_predict_intra_16"]
    pub fn predict_intra_16(
        samples: *mut u16,
        samples_len: usize,
        stride: usize,
        x: usize,
        y: usize,
        block: *const IntraBlock,
        left: *const u16,
        left_len: usize,
        corner: u16,
        above: *const u16,
        above_len: usize,
    ) -> u32;

    #[link_name = "tilg_predict_cfl_8"]
    pub fn predict_cfl_8(
        samples: *mut u8,
        samples_len: usize,
        stride: usize,
        x: usize,
        y: usize,
        block: *const IntraBlock,
        left: *const u8,
        left_len: usize,
        above: *const u8,
        above_len: usize,
        ac: *const i16,
        ac_len: usize,
        alpha: i16,
    ) -> u32;

    #[link_name = "tilg_predict_cfl_16"]
    pub fn predict_cfl_16(
        samples: *mut u16,
        samples_len: usize,
        stride: usize,
        x: usize,
        y: usize,
        block: *const IntraBlock,
        left: *const u16,
        left_len: usize,
        above: *const u16,
        above_len: usize,
        ac: *const i16,
        ac_len: usize,
        alpha: i16,
    ) -> u32;

    #[link_name = "tilg_intra_edge_8"]
    pub fn intra_edge_8(
        edge: *mut u8,
        edge_len: usize,
        samples: *const u8,
        samples_len: usize,
        plane: *const EdgePlane,
        block: *const EdgeBlock,
    ) -> u32;

    #[link_name = "tilg_intra_edge_16"]
    pub fn intra_edge_16(
        edge: *mut u16,
        edge_len: usize,
        samples: *const u16,
        samples_len: usize,
        plane: *const EdgePlane,
        block: *const EdgeBlock,
    ) -> u32;

    #[link_name = "tilg_predict_in_plane_8"]
    pub fn predict_in_plane_8(
        samples: *mut u8,
        samples_len: usize,
        plane: *const EdgePlane,
        block: *const EdgeBlock,
        smooth_neighbour: u8,
        ac: *const i16,
        ac_len: usize,
        alpha: i16,
    ) -> u32;

    #[link_name = "tilg_predict_in_plane_16"]
    pub fn predict_in_plane_16(
        samples: *mut u16,
        samples_len: usize,
        plane: *const EdgePlane,
        block: *const EdgeBlock,
        smooth_neighbour: u8,
        ac: *const i16,
        ac_len: usize,
        alpha: i16,
    ) -> u32;

    #[link_name = "tilg_cfl_ac_8"]
    pub fn cfl_ac_8(
        ac: *mut i16,
        ac_len: usize,
        luma: *const u8,
        luma_len: usize,
        stride: usize,
        x: usize,
        y: usize,
        block: *const CflBlock,
    ) -> u32;

    #[link_name = "tilg_cfl_ac_tested_16"]
    pub fn cfl_ac_tested_16(
        ac: *mut i16,
        ac_len: usize,
        luma: *const u16,
        luma_len: usize,
        stride: usize,
        x: usize,
        y: usize,
        block: *const CflBlock,
    ) -> u32;

    #[link_name = "tilg_cfl_block_of"]
    pub fn cfl_block_of(block: *mut CflBlock, luma: *const LumaBlock) -> u32;

    #[link_name = "tilg_put_8tap_8"]
    pub fn put_8tap_8(
        dst: *mut u8,
        dst_len: usize,
        dst_stride: usize,
        dst_x: usize,
        dst_y: usize,
        src: *const u8,
        src_len: usize,
        src_stride: usize,
        src_x: usize,
        src_y: usize,
        block: *const MotionBlock,
    ) -> u32;

    #[link_name = "tilg_prep_8tap_8"]
    pub fn prep_8tap_8(
        values: *mut i16,
        values_len: usize,
        src: *const u8,
        src_len: usize,
        src_stride: usize,
        src_x: usize,
        src_y: usize,
        block: *const MotionBlock,
    ) -> u32;

    #[link_name = "tilg_mc_avg_8"]
    pub fn mc_avg_8(
        samples: *mut u8,
        samples_len: usize,
        stride: usize,
        x: usize,
        y: usize,
        width: usize,
        height: usize,
        first: *const i16,
        first_len: usize,
        second: *const i16,
        second_len: usize,
    ) -> u32;

    #[link_name = "tilg_mc_avg_16"]
    pub fn mc_avg_16(
        samples: *mut u16,
        samples_len: usize,
        stride: usize,
        x: usize,
        y: usize,
        width: usize,
        height: usize,
        first: *const i16,
        first_len: usize,
        second: *const i16,
        second_len: usize,
        bit_depth: u8,
    ) -> u32;

    #[link_name = "tilg_put_moved_8"]
    pub fn put_moved_8(
        dst: *mut u8,
        dst_len: usize,
        dst_stride: usize,
        dst_x: usize,
        dst_y: usize,
        context: *mut Context,
        src: *const u8,
        src_len: usize,
        plane: *const MotionPlane,
        block: *const MovedBlock,
    ) -> u32;

    #[link_name = "tilg_put_moved_16"]
    pub fn put_moved_16(
        dst: *mut u16,
        dst_len: usize,
        dst_stride: usize,
        dst_x: usize,
        dst_y: usize,
        context: *mut Context,
        src: *const u16,
        src_len: usize,
        plane: *const MotionPlane,
        block: *const MovedBlock,
        bit_depth: u8,
    ) -> u32;

    #[link_name = "tilg_prep_moved_8"]
    pub fn prep_moved_8(
        values: *mut i16,
        values_len: usize,
        context: *mut Context,
        src: *const u8,
        src_len: usize,
        plane: *const MotionPlane,
        block: *const MovedBlock,
    ) -> u32;

    #[link_name = "tilg_prep_moved_16"]
    pub fn prep_moved_16(
        values: *mut i16,
        values_len: usize,
        context: *mut Context,
        src: *const u16,
        src_len: usize,
        plane: *const MotionPlane,
        block: *const MovedBlock,
        bit_depth: u8,
    ) -> u32;

    #[link_name = "tilg_test_samples_16"]
    pub fn test_samples_16(
        samples: *const u16,
        samples_len: usize,
        stride: usize,
        x: usize,
        y: usize,
        width: usize,
        height: usize,
        bit_depth: u8,
    ) -> u32;

    #[link_name = "tilg_put_tested_16"]
    pub fn put_tested_16(
        dst: *mut u16,
        dst_len: usize,
        dst_stride: usize,
        dst_x: usize,
        dst_y: usize,
        src: *const u16,
        src_len: usize,
        src_stride: usize,
        src_x: usize,
        src_y: usize,
        block: *const MotionBlock,
        bit_depth: u8,
    ) -> u32;

    #[link_name = "tilg_prep_tested_16"]
    pub fn prep_tested_16(
        values: *mut i16,
        values_len: usize,
        src: *const u16,
        src_len: usize,
        src_stride: usize,
        src_x: usize,
        src_y: usize,
        block: *const MotionBlock,
        bit_depth: u8,
    ) -> u32;

    #[link_name = "tilg_planes_len"]
    pub fn planes_len(
        len: *mut usize,
        refusal: *mut Refusal,
        bytes: *const u8,
        bytes_len: usize,
    ) -> u32;

    #[link_name = "tilg_reconstruct_plan"]
    pub fn reconstruct_plan(
        room: *mut u8,
        room_len: usize,
        written: *mut usize,
        refusal: *mut Refusal,
        bytes: *const u8,
        bytes_len: usize,
    ) -> u32;

    #[link_name = "tilg_reconstruct_sequence"]
    pub fn reconstruct_sequence(
        room: *mut u8,
        room_len: usize,
        written: *mut usize,
        refusal: *mut PartRefusal,
        bytes: *const u8,
        bytes_len: usize,
    ) -> u32;

    #[link_name = "tilg_reconstruct_tiles"]
    pub fn reconstruct_tiles(
        room: *mut u8,
        room_len: usize,
        written: *mut usize,
        refusal: *mut PartRefusal,
        bytes: *const u8,
        bytes_len: usize,
    ) -> u32;

    #[link_name = "tilg_inverse_transform_add_8"]
    pub fn inverse_transform_add_8(
        samples: *mut u8,
        samples_len: usize,
        stride: usize,
        x: usize,
        y: usize,
        context: *mut Context,
        coefficients: *const i16,
        coefficients_len: usize,
        tx_size: u8,
        tx_type: u8,
    ) -> u32;

    #[link_name = "tilg_inverse_transform_add_16"]
    pub fn inverse_transform_add_16(
        samples: *mut u16,
        samples_len: usize,
        stride: usize,
        x: usize,
        y: usize,
        context: *mut Context,
        coefficients: *const i32,
        coefficients_len: usize,
        tx_size: u8,
        tx_type: u8,
        bit_depth: u8,
    ) -> u32;

    #[link_name = "tilg_inverse_transform_add_rav1e_16"]
    pub fn inverse_transform_add_rav1e_16(
        samples: *mut u16,
        samples_len: usize,
        stride: usize,
        x: usize,
        y: usize,
        context: *mut Context,
        coefficients: *const i32,
        coefficients_len: usize,
        tx_size: u8,
        tx_type: u8,
        bit_depth: u8,
    ) -> u32;

    #[link_name = "tilg_version_0_4"]
    pub fn version_0_4() -> u32;
}

// The symbol's name has the minor version, so a library of another minor version does not link.
#[used]
static NEEDS_VERSION: unsafe extern "C" fn() -> u32 = version_0_4;
