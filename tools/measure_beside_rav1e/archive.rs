//! Makes one call of the library for C, or the call of this project that it makes in turn, some times, and prints a digest of what that wrote.
//! `measure.py` builds and runs it.
//!
//!     WHO KIND SIDE DEPTH OPTION ROUNDS
//!
//! WHO is `archive` or `bare`. Blocks are squares of SIDE samples at column and row 16 of samples whose rows stand 192 apart: `u8` at a DEPTH
//! of 8, else `u16`. OPTION is for `transform` its type, for `put` and `prepare` both fractions in sixteenths, and for `predict` and `edge`
//! the mode.
#![allow(clippy::too_many_arguments)]

use std::fmt::Debug;

/// `tilg_motion_block`.
#[repr(C)]
struct MotionBlock {
    width: usize,
    height: usize,
    fraction_x: u8,
    fraction_y: u8,
    filter_x: u8,
    filter_y: u8,
}

/// `tilg_intra_block`.
#[repr(C)]
struct IntraBlock {
    mode: u8,
    tx_size: u8,
    angle_step: i8,
    bit_depth: u8,
    has_left: u8,
    has_above: u8,
    edge_filter: u8,
    smooth_neighbour: u8,
    visible_columns: usize,
    visible_rows: usize,
}

/// `tilg_edge_plane`.
#[repr(C)]
struct EdgePlane {
    stride: usize,
    x: usize,
    y: usize,
    width: usize,
    height: usize,
    tile_x: usize,
    tile_y: usize,
    tile_width: usize,
    tile_height: usize,
    halved_columns: u8,
    halved_rows: u8,
}

/// `tilg_edge_block`.
#[repr(C)]
struct EdgeBlock {
    x: usize,
    y: usize,
    cell_x: usize,
    cell_y: usize,
    unit_x: usize,
    unit_y: usize,
    block_size: u8,
    tx_size: u8,
    mode: u8,
    angle_step: i8,
    bit_depth: u8,
    edge_filter: u8,
}

/// `tilg_cfl_block`.
#[repr(C)]
struct CflBlock {
    block_size: u8,
    halved_columns: u8,
    halved_rows: u8,
    w_pad: usize,
    h_pad: usize,
}

/// `tilg_context`.
#[repr(C, align(64))]
struct Context([i32; 19813]);

// What holds for all calls: column and row of the block, and how far rows stand apart.
const AT: usize = 16;
const STRIDE: usize = 192;
const ROWS: usize = 192;
const UV_CFL_PRED: u8 = 13;
/// The regular filter.
const FILTER: u8 = 0;
/// The weight of luma in eighths.
const ALPHA: i16 = 5;

#[link(name = "tilgwaren", kind = "static")]
unsafe extern "C" {
    fn tilg_inverse_transform_add_8(s: *mut u8, m: usize, stride: usize, x: usize, y: usize, room: &mut Context, i: *const i16, n: usize, size: u8, kind: u8) -> u32;
    fn tilg_inverse_transform_add_16(s: *mut u16, m: usize, stride: usize, x: usize, y: usize, room: &mut Context, i: *const i32, n: usize, size: u8, kind: u8, depth: u8) -> u32;
    fn tilg_put_8tap_8(s: *mut u8, m: usize, stride: usize, x: usize, y: usize, from: *const u8, n: usize, from_stride: usize, from_x: usize, from_y: usize, block: &MotionBlock) -> u32;
    fn tilg_put_tested_16(s: *mut u16, m: usize, stride: usize, x: usize, y: usize, from: *const u16, n: usize, from_stride: usize, from_x: usize, from_y: usize, block: &MotionBlock, depth: u8) -> u32;
    fn tilg_prep_8tap_8(t: *mut i16, m: usize, from: *const u8, n: usize, from_stride: usize, from_x: usize, from_y: usize, block: &MotionBlock) -> u32;
    fn tilg_prep_tested_16(t: *mut i16, m: usize, from: *const u16, n: usize, from_stride: usize, from_x: usize, from_y: usize, block: &MotionBlock, depth: u8) -> u32;
    fn tilg_mc_avg_8(s: *mut u8, m: usize, stride: usize, x: usize, y: usize, w: usize, h: usize, a: *const i16, n: usize, b: *const i16, k: usize) -> u32;
    fn tilg_mc_avg_16(s: *mut u16, m: usize, stride: usize, x: usize, y: usize, w: usize, h: usize, a: *const i16, n: usize, b: *const i16, k: usize, depth: u8) -> u32;
    fn tilg_predict_intra_8(s: *mut u8, m: usize, stride: usize, x: usize, y: usize, block: &IntraBlock, l: *const u8, n: usize, corner: u8, a: *const u8, k: usize) -> u32;
    fn tilg_predict_intra_16(s: *mut u16, m: usize, stride: usize, x: usize, y: usize, block: &IntraBlock, l: *const u16, n: usize, corner: u16, a: *const u16, k: usize) -> u32;
    fn tilg_predict_cfl_8(s: *mut u8, m: usize, stride: usize, x: usize, y: usize, block: &IntraBlock, l: *const u8, n: usize, a: *const u8, k: usize, ac: *const i16, c: usize, alpha: i16) -> u32;
    fn tilg_predict_cfl_16(s: *mut u16, m: usize, stride: usize, x: usize, y: usize, block: &IntraBlock, l: *const u16, n: usize, a: *const u16, k: usize, ac: *const i16, c: usize, alpha: i16) -> u32;
    fn tilg_cfl_ac_8(ac: *mut i16, m: usize, luma: *const u8, n: usize, stride: usize, x: usize, y: usize, block: &CflBlock) -> u32;
    fn tilg_cfl_ac_tested_16(ac: *mut i16, m: usize, luma: *const u16, n: usize, stride: usize, x: usize, y: usize, block: &CflBlock) -> u32;
    fn tilg_intra_edge_8(edge: *mut u8, m: usize, s: *const u8, n: usize, plane: &EdgePlane, block: &EdgeBlock) -> u32;
    fn tilg_intra_edge_16(edge: *mut u16, m: usize, s: *const u16, n: usize, plane: &EdgePlane, block: &EdgeBlock) -> u32;
}

#[link(name = "bare_calls", kind = "static")]
unsafe extern "C" {
    fn bare_transform_8(room: &mut Context, i: *const i16, n: usize, s: *mut u8, m: usize, stride: usize, at: usize, size: u8, kind: u8, depth: usize, rounds: usize);
    fn bare_transform_16(room: &mut Context, i: *const i32, n: usize, s: *mut u16, m: usize, stride: usize, at: usize, size: u8, kind: u8, depth: usize, rounds: usize);
    fn bare_put_8(s: *mut u8, m: usize, from: *const u8, n: usize, stride: usize, at: usize, side: usize, across: u8, down: u8, filter: u8, depth: usize, rounds: usize);
    fn bare_put_16(s: *mut u16, m: usize, from: *const u16, n: usize, stride: usize, at: usize, side: usize, across: u8, down: u8, filter: u8, depth: usize, rounds: usize);
    fn bare_prepare_8(t: *mut i16, m: usize, from: *const u8, n: usize, stride: usize, at: usize, side: usize, across: u8, down: u8, filter: u8, depth: usize, rounds: usize);
    fn bare_prepare_16(t: *mut i16, m: usize, from: *const u16, n: usize, stride: usize, at: usize, side: usize, across: u8, down: u8, filter: u8, depth: usize, rounds: usize);
    fn bare_average_8(s: *mut u8, m: usize, a: *const i16, n: usize, b: *const i16, k: usize, stride: usize, at: usize, side: usize, depth: usize, rounds: usize);
    fn bare_average_16(s: *mut u16, m: usize, a: *const i16, n: usize, b: *const i16, k: usize, stride: usize, at: usize, side: usize, depth: usize, rounds: usize);
    fn bare_predict_8(s: *mut u8, m: usize, l: *const u8, n: usize, corner: u8, a: *const u8, k: usize, ac: *const i16, c: usize, stride: usize, at: usize, side: usize, mode: u8, filtered: u8, alpha: i16, depth: usize, rounds: usize);
    fn bare_predict_16(s: *mut u16, m: usize, l: *const u16, n: usize, corner: u16, a: *const u16, k: usize, ac: *const i16, c: usize, stride: usize, at: usize, side: usize, mode: u8, filtered: u8, alpha: i16, depth: usize, rounds: usize);
    fn bare_luma_8(ac: *mut i16, m: usize, luma: *const u8, n: usize, stride: usize, rows: usize, at: usize, block: u8, rounds: usize);
    fn bare_luma_16(ac: *mut i16, m: usize, luma: *const u16, n: usize, stride: usize, rows: usize, at: usize, block: u8, rounds: usize);
    fn bare_edge_8(edge: *mut u8, m: usize, s: *const u8, n: usize, stride: usize, rows: usize, at: usize, block: u8, size: u8, mode: u8, depth: usize, rounds: usize);
    fn bare_edge_16(edge: *mut u16, m: usize, s: *const u16, n: usize, stride: usize, rows: usize, at: usize, block: u8, size: u8, mode: u8, depth: usize, rounds: usize);
}

/// A call: of which kind, of what, and how often. The archive's calls are made where `archive` is set.
struct Call {
    archive: bool,
    side: usize,
    depth: usize,
    option: u8,
    rounds: usize,
}

impl Call {
    /// The number of a square's size among transforms, and among blocks.
    fn size(&self) -> (u8, u8) {
        match self.side {
            4 => (0, 0),
            8 => (1, 3),
            16 => (2, 6),
            32 => (3, 9),
            64 => (4, 12),
            side => panic!("a square of {side}"),
        }
    }

    /// Makes a call of the archive as often as it is asked for.
    fn repeat(&self, mut call: impl FnMut() -> u32) {
        for _ in 0..self.rounds {
            assert_eq!(call(), 0);
        }
    }
}

/// Numbers that are the same each time, from -`half` to `half` - 1.
fn numbers(seed: u64, count: usize, half: i64) -> Vec<i64> {
    let mut state = seed;
    let mut next = || {
        state = state.wrapping_mul(6364136223846793005).wrapping_add(1442695040888963407);
        (state >> 33) as i64 % (2 * half) - half
    };
    (0..count).map(|_| next()).collect()
}

/// So many samples of a depth.
fn samples<T: TryFrom<i64>>(count: usize, depth: usize) -> Vec<T>
where
    T::Error: Debug,
{
    let half = 1 << (depth - 1);
    numbers(9, count, half).into_iter().map(|it| T::try_from(it + half).unwrap()).collect()
}

/// So many signed values on either side of 0.
fn values<T: TryFrom<i64>>(seed: u64, count: usize, half: i64) -> Vec<T>
where
    T::Error: Debug,
{
    numbers(seed, count, half).into_iter().map(|it| T::try_from(it).unwrap()).collect()
}

/// A digest of what was written.
fn digest<T: Copy + Into<i64>>(written: &[T]) -> u64 {
    written.iter().fold(0, |d: u64, it| d.wrapping_mul(31).wrapping_add((*it).into() as u64))
}

fn motion_block(call: &Call) -> MotionBlock {
    MotionBlock { width: call.side, height: call.side, fraction_x: call.option, fraction_y: call.option, filter_x: FILTER, filter_y: FILTER }
}

fn intra_block(call: &Call) -> IntraBlock {
    IntraBlock {
        mode: call.option,
        tx_size: call.size().0,
        angle_step: 0,
        bit_depth: call.depth as u8,
        has_left: 1,
        has_above: 1,
        edge_filter: 1,
        smooth_neighbour: 0,
        visible_columns: call.side,
        visible_rows: call.side,
    }
}

fn edge_plane() -> EdgePlane {
    EdgePlane { stride: STRIDE, x: 0, y: 0, width: STRIDE, height: ROWS, tile_x: 0, tile_y: 0, tile_width: STRIDE, tile_height: ROWS, halved_columns: 0, halved_rows: 0 }
}

fn edge_block(call: &Call) -> EdgeBlock {
    let (tx_size, block_size) = call.size();
    EdgeBlock {
        x: AT,
        y: AT,
        cell_x: AT / 4,
        cell_y: AT / 4,
        unit_x: 0,
        unit_y: 0,
        block_size,
        tx_size,
        mode: call.option,
        angle_step: 0,
        bit_depth: call.depth as u8,
        edge_filter: 1,
    }
}

/// The calls of one type of samples. `$depth` is what calls of it have at the end: the depth, or nothing.
macro_rules! calls {
    ($module:ident, $T:ty, $Coefficient:ty, ($($depth:ident)?), $transform:ident $put:ident $prepare:ident $average:ident $intra:ident $cfl:ident $luma:ident $edge:ident,
     $bare_transform:ident $bare_put:ident $bare_prepare:ident $bare_average:ident $bare_predict:ident $bare_luma:ident $bare_edge:ident) => {
        mod $module {
            use super::*;

            pub fn transform(call: &Call) -> u64 {
                let (size, side) = (call.size().0, call.side.min(32));
                let coefficients: Vec<$Coefficient> = values(7, side * side, 100 << (call.depth - 8));
                let mut written: Vec<$T> = samples(STRIDE * ROWS, call.depth);
                let mut room = Box::new(Context([0; 19813]));
                let (i, n, s, m) = (coefficients.as_ptr(), coefficients.len(), written.as_mut_ptr(), written.len());
                if call.archive {
                    call.repeat(|| unsafe { $transform(s, m, STRIDE, AT, AT, &mut room, i, n, size, call.option $(, call.$depth as u8)?) });
                } else {
                    unsafe { $bare_transform(&mut room, i, n, s, m, STRIDE, AT, size, call.option, call.depth, call.rounds) };
                }
                digest(&written)
            }

            pub fn put(call: &Call) -> u64 {
                let source: Vec<$T> = samples(STRIDE * ROWS, call.depth);
                let mut written: Vec<$T> = vec![0; STRIDE * ROWS];
                let (i, n, s, m) = (source.as_ptr(), source.len(), written.as_mut_ptr(), written.len());
                if call.archive {
                    let block = motion_block(call);
                    call.repeat(|| unsafe { $put(s, m, STRIDE, AT, AT, i, n, STRIDE, AT, AT, &block $(, call.$depth as u8)?) });
                } else {
                    let rows = STRIDE * (AT + call.side + 4);
                    unsafe { $bare_put(s, m, i, rows, STRIDE, AT, call.side, call.option, call.option, FILTER, call.depth, call.rounds) };
                }
                digest(&written)
            }

            pub fn prepare(call: &Call) -> u64 {
                let source: Vec<$T> = samples(STRIDE * ROWS, call.depth);
                let mut written = vec![0i16; call.side * call.side];
                let (i, n, s, m) = (source.as_ptr(), source.len(), written.as_mut_ptr(), written.len());
                if call.archive {
                    let block = motion_block(call);
                    call.repeat(|| unsafe { $prepare(s, m, i, n, STRIDE, AT, AT, &block $(, call.$depth as u8)?) });
                } else {
                    let rows = STRIDE * (AT + call.side + 4);
                    unsafe { $bare_prepare(s, m, i, rows, STRIDE, AT, call.side, call.option, call.option, FILTER, call.depth, call.rounds) };
                }
                digest(&written)
            }

            pub fn average(call: &Call) -> u64 {
                let count = call.side * call.side;
                let (first, second): (Vec<i16>, Vec<i16>) = (values(11, count, 8192), values(12, count, 8192));
                let mut written: Vec<$T> = vec![0; STRIDE * ROWS];
                let (a, b, s, m) = (first.as_ptr(), second.as_ptr(), written.as_mut_ptr(), written.len());
                if call.archive {
                    call.repeat(|| unsafe { $average(s, m, STRIDE, AT, AT, call.side, call.side, a, count, b, count $(, call.$depth as u8)?) });
                } else {
                    unsafe { $bare_average(s, m, a, count, b, count, STRIDE, AT, call.side, call.depth, call.rounds) };
                }
                digest(&written)
            }

            pub fn predict(call: &Call) -> u64 {
                let long = 2 * call.side;
                let sides: Vec<$T> = samples(2 * long + 1, call.depth);
                let (l, corner, a) = (sides.as_ptr(), sides[long], sides[long + 1..].as_ptr());
                let mut written: Vec<$T> = vec![0; STRIDE * ROWS];
                let (s, m, block) = (written.as_mut_ptr(), written.len(), intra_block(call));
                if call.archive {
                    call.repeat(|| unsafe { $intra(s, m, STRIDE, AT, AT, &block, l, long, corner, a, long) });
                } else {
                    unsafe { $bare_predict(s, m, l, long, corner, a, long, [].as_ptr(), 0, STRIDE, AT, call.side, call.option, 1, 0, call.depth, call.rounds) };
                }
                digest(&written)
            }

            pub fn cfl(call: &Call) -> u64 {
                let (side, count) = (call.side, call.side * call.side);
                let sides: Vec<$T> = samples(2 * side, call.depth);
                let (l, a) = (sides.as_ptr(), sides[side..].as_ptr());
                let differences: Vec<i16> = values(13, count, 1000);
                let mut written: Vec<$T> = vec![0; STRIDE * ROWS];
                let (s, m, ac) = (written.as_mut_ptr(), written.len(), differences.as_ptr());
                if call.archive {
                    let block = intra_block(call);
                    call.repeat(|| unsafe { $cfl(s, m, STRIDE, AT, AT, &block, l, side, a, side, ac, count, ALPHA) });
                } else {
                    unsafe { $bare_predict(s, m, l, side, 0, a, side, ac, count, STRIDE, AT, side, UV_CFL_PRED, 1, ALPHA, call.depth, call.rounds) };
                }
                digest(&written)
            }

            pub fn luma(call: &Call) -> u64 {
                let source: Vec<$T> = samples(STRIDE * ROWS, call.depth);
                let mut written = vec![0i16; call.side * call.side];
                let (i, n, s, m) = (source.as_ptr(), source.len(), written.as_mut_ptr(), written.len());
                let block_size = call.size().1;
                if call.archive {
                    let block = CflBlock { block_size, halved_columns: 1, halved_rows: 1, w_pad: 0, h_pad: 0 };
                    call.repeat(|| unsafe { $luma(s, m, i, n, STRIDE, AT, AT, &block) });
                } else {
                    unsafe { $bare_luma(s, m, i, n, STRIDE, ROWS, AT, block_size, call.rounds) };
                }
                digest(&written)
            }

            pub fn edge(call: &Call) -> u64 {
                let source: Vec<$T> = samples(STRIDE * ROWS, call.depth);
                let mut written: Vec<$T> = vec![0; 257];
                let (i, n, s) = (source.as_ptr(), source.len(), written.as_mut_ptr());
                let (size, block_size) = call.size();
                if call.archive {
                    let (plane, block) = (edge_plane(), edge_block(call));
                    call.repeat(|| unsafe { $edge(s, 257, i, n, &plane, &block) });
                } else {
                    unsafe { $bare_edge(s, 257, i, n, STRIDE, ROWS, AT, block_size, size, call.option, call.depth, call.rounds) };
                }
                digest(&written)
            }
        }
    };
}

calls!(narrow, u8, i16, (), tilg_inverse_transform_add_8 tilg_put_8tap_8 tilg_prep_8tap_8 tilg_mc_avg_8 tilg_predict_intra_8 tilg_predict_cfl_8 tilg_cfl_ac_8 tilg_intra_edge_8,
    bare_transform_8 bare_put_8 bare_prepare_8 bare_average_8 bare_predict_8 bare_luma_8 bare_edge_8);
calls!(wide, u16, i32, (depth), tilg_inverse_transform_add_16 tilg_put_tested_16 tilg_prep_tested_16 tilg_mc_avg_16 tilg_predict_intra_16 tilg_predict_cfl_16 tilg_cfl_ac_tested_16 tilg_intra_edge_16,
    bare_transform_16 bare_put_16 bare_prepare_16 bare_average_16 bare_predict_16 bare_luma_16 bare_edge_16);

fn main() {
    let words: Vec<String> = std::env::args().collect();
    let number = |at: usize| -> usize { words[at].parse().expect("a number") };
    let call = Call { archive: words[1] == "archive", side: number(3), depth: number(4), option: number(5) as u8, rounds: number(6) };
    macro_rules! of_depth {
        ($kind:ident) => {
            if call.depth == 8 { narrow::$kind(&call) } else { wide::$kind(&call) }
        };
    }
    let digest = match words[2].as_str() {
        "transform" => of_depth!(transform),
        "put" => of_depth!(put),
        "prepare" => of_depth!(prepare),
        "average" => of_depth!(average),
        "predict" => of_depth!(predict),
        "cfl" => of_depth!(cfl),
        "luma" => of_depth!(luma),
        "edge" => of_depth!(edge),
        kind => panic!("{kind} is no call"),
    };
    println!("{digest}");
}
