//! Runs one call of this project or of rav1e some times, and prints a digest of what it wrote. `measure.py` builds and runs it.
#![allow(dead_code, unused_imports, unused_unsafe, non_upper_case_globals, unexpected_cfgs, clippy::all)]

include!("numbers.rs");
include!("stubs.rs");
mod mc;
mod transform;

use transform::*;
use util::*;
use cpu_features::CpuFeatureLevel;

#[link(name = "beside_rav1e", kind = "static")]
unsafe extern "C" {
    fn measure_transform_8(i: *const i16, n: usize, s: *mut u32, m: usize, size: u8, kind: u8, depth: usize, rounds: usize) -> u32;
    fn measure_transform_16(i: *const i32, n: usize, s: *mut u32, m: usize, size: u8, kind: u8, depth: usize, rounds: usize) -> u32;
    fn measure_put_8(i: *const u8, n: usize, s: *mut u32, m: usize, w: usize, h: usize, c: i32, r: i32, mode: u8, depth: usize, rounds: usize) -> u32;
    fn measure_put_16(i: *const u16, n: usize, s: *mut u32, m: usize, w: usize, h: usize, c: i32, r: i32, mode: u8, depth: usize, rounds: usize) -> u32;
    fn measure_prepare_8(i: *const u8, n: usize, t: *mut i16, m: usize, w: usize, h: usize, c: i32, r: i32, mode: u8, depth: usize, rounds: usize) -> u32;
    fn measure_prepare_16(i: *const u16, n: usize, t: *mut i16, m: usize, w: usize, h: usize, c: i32, r: i32, mode: u8, depth: usize, rounds: usize) -> u32;
    fn measure_cosine(v: *mut i32, m: usize, n: usize, bits: u8, rounds: usize) -> u32;
    fn measure_average_8(a: *const i16, n: usize, b: *const i16, k: usize, s: *mut u32, m: usize, w: usize, h: usize, depth: usize, rounds: usize) -> u32;
    fn measure_average_16(a: *const i16, n: usize, b: *const i16, k: usize, s: *mut u32, m: usize, w: usize, h: usize, depth: usize, rounds: usize) -> u32;
}
#[link(name = "libc_c", kind = "static")]
unsafe extern "C" {}

const SIZES: [TxSize; 19] = { use TxSize::*; [TX_4X4, TX_8X8, TX_16X16, TX_32X32, TX_64X64, TX_4X8, TX_8X4, TX_8X16, TX_16X8, TX_16X32, TX_32X16, TX_32X64, TX_64X32, TX_4X16, TX_16X4, TX_8X32, TX_32X8, TX_16X64, TX_64X16] };
const TYPES: [TxType; 17] = { use TxType::*; [DCT_DCT, ADST_DCT, DCT_ADST, ADST_ADST, FLIPADST_DCT, DCT_FLIPADST, FLIPADST_FLIPADST, ADST_FLIPADST, FLIPADST_ADST, IDTX, V_DCT, H_DCT, V_ADST, H_ADST, V_FLIPADST, H_FLIPADST, WHT_WHT] };

fn rav1e_transform<T: Pixel>(input: &[T::Coeff], sums: &mut [u32], size: u8, kind: u8, depth: usize, rounds: usize) {
    let mut plane = frame::Plane::from_slice(&vec![T::zero(); 64 * 64], 64);
    {
        let mut region = tiling::PlaneRegionMut::new(&mut plane);
        for _ in 0..rounds {
            inverse_transform_add(input, &mut region, 0, SIZES[size as usize], TYPES[kind as usize], depth, CpuFeatureLevel);
        }
    }
    for (sum, v) in sums.iter_mut().zip(&plane.data) { let v: i32 = (*v).into(); *sum = v as u32; }
}
fn rav1e_put<T: Pixel>(input: &[T], sums: &mut [u32], w: usize, h: usize, c: i32, r: i32, mode: u8, depth: usize, rounds: usize) {
    use mc::FilterMode::*;
    let mode = [REGULAR, SMOOTH, SHARP, BILINEAR][mode as usize];
    let source = frame::Plane::<T>::from_slice(input, 192);
    let mut plane = frame::Plane::from_slice(&vec![T::zero(); 128 * 128], 128);
    {
        let mut region = tiling::PlaneRegionMut::new(&mut plane);
        for _ in 0..rounds {
            mc::put_8tap(&mut region, source.slice(frame::PlaneOffset { x: 16, y: 16 }), w, h, c, r, mode, mode, depth, CpuFeatureLevel);
        }
    }
    for (sum, v) in sums.iter_mut().zip(&plane.data) { let v: i32 = (*v).into(); *sum = v as u32; }
}
fn rav1e_prepare<T: Pixel>(input: &[T], tmp: &mut [i16], w: usize, h: usize, c: i32, r: i32, mode: u8, depth: usize, rounds: usize) {
    use mc::FilterMode::*;
    let mode = [REGULAR, SMOOTH, SHARP, BILINEAR][mode as usize];
    let source = frame::Plane::<T>::from_slice(input, 192);
    for _ in 0..rounds {
        mc::prep_8tap(tmp, source.slice(frame::PlaneOffset { x: 16, y: 16 }), w, h, c, r, mode, mode, depth, CpuFeatureLevel);
    }
}
fn rav1e_average<T: Pixel>(a: &[i16], b: &[i16], sums: &mut [u32], w: usize, h: usize, depth: usize, rounds: usize) {
    let mut plane = frame::Plane::from_slice(&vec![T::zero(); 128 * 128], 128);
    {
        let mut region = tiling::PlaneRegionMut::new(&mut plane);
        for _ in 0..rounds {
            mc::mc_avg(&mut region, a, b, w, h, depth, CpuFeatureLevel);
        }
    }
    for (sum, v) in sums.iter_mut().zip(&plane.data) { let v: i32 = (*v).into(); *sum = v as u32; }
}
/// Columns side by side, transformed and transformed again.
fn rav1e_cosine(values: &mut [i32], columns: usize, n: usize, range: usize, rounds: usize) {
    use transform::inverse::*;
    let run = match n { 4 => av1_idct4, 8 => av1_idct8, 16 => av1_idct16, 32 => av1_idct32, _ => av1_idct64 };
    for c in 0..columns {
        let (mut a, mut b) = ([0; 64], [0; 64]);
        for r in 0..n { a[r] = values[r * columns + c]; }
        for _ in 0..rounds { run(&a[..n], &mut b[..n], range); run(&b[..n], &mut a[..n], range); }
        for r in 0..n { values[r * columns + c] = a[r]; }
    }
}
/// The next of a row of numbers that are the same each time.
fn next(s: &mut u64) -> u64 { *s = s.wrapping_mul(6364136223846793005).wrapping_add(1442695040888963407); *s >> 33 }
/// Coefficients of a block, all of them or the ten in its corner.
fn coefficients(size: TxSize, sparse: bool, depth: usize) -> Vec<i32> {
    let (w, h) = (size.width().min(32), size.height().min(32));
    let mut s = 7u64;
    let mut v = vec![0; w * h];
    for c in 0..w { for r in 0..h {
        let x = next(&mut s) % (200 << (depth - 8));
        if !sparse || c + r < 4 { v[c * h + r] = x as i32 - (100 << (depth - 8)); }
    } }
    v
}
fn main() {
    let a: Vec<String> = std::env::args().collect();
    let n = |i: usize| -> usize { a[i].parse().unwrap() };
    let mut sums = vec![0u32; 128 * 128];
    // WHO transform SIZE TYPE DEPTH SPARSE ROUNDS
    // WHO put WIDTH HEIGHT FRACTION_ACROSS FRACTION_DOWN FILTER DEPTH ROUNDS
    // WHO prepare WIDTH HEIGHT FRACTION_ACROSS FRACTION_DOWN FILTER DEPTH ROUNDS
    // WHO average WIDTH HEIGHT DEPTH ROUNDS
    // WHO cosine LENGTH BITS ROUNDS, where BITS are those of a lane, or 0 for one column by itself
    let ours = a[1] == "ours";
    match a[2].as_str() {
        "transform" => {
            let (size, kind, depth, sparse, rounds) = (n(3), n(4), n(5), n(6) == 1, n(7));
            let v = coefficients(SIZES[size], sparse, depth);
            if depth == 8 {
                let v: Vec<i16> = v.iter().map(|x| *x as i16).collect();
                if ours { unsafe { assert_eq!(measure_transform_8(v.as_ptr(), v.len(), sums.as_mut_ptr(), sums.len(), size as u8, kind as u8, depth, rounds), 0) } }
                else { rav1e_transform::<u8>(&v, &mut sums, size as u8, kind as u8, depth, rounds) }
            } else if ours { unsafe { assert_eq!(measure_transform_16(v.as_ptr(), v.len(), sums.as_mut_ptr(), sums.len(), size as u8, kind as u8, depth, rounds), 0) } }
            else { rav1e_transform::<u16>(&v, &mut sums, size as u8, kind as u8, depth, rounds) }
        }
        "cosine" => {
            let (length, bits, rounds) = (n(3), n(4), n(5));
            let columns = if bits == 0 { 1 } else { 8 };
            let mut s = 5u64;
            let mut v: Vec<i32> = (0..columns * length).map(|_| (next(&mut s) % (1 << 16)) as i32 - (1 << 15)).collect();
            if ours { unsafe { assert_eq!(measure_cosine(v.as_mut_ptr(), v.len(), length, bits as u8, rounds), 0) } }
            else { rav1e_cosine(&mut v, columns, length, if bits == 32 { 18 } else { 16 }, rounds) }
            for (sum, v) in sums.iter_mut().zip(&v) { *sum = *v as u32; }
        }
        "average" => {
            let (w, h, depth, rounds) = (n(3), n(4), n(5), n(6));
            let mut s = 11u64;
            // Some are past what a prepared block holds, so that the clip is met on both sides.
            let mut values = || -> Vec<i16> { (0..w * h).map(|_| (next(&mut s) % (28 << 10)) as i16 - (14 << 10)).collect() };
            let (a, b) = (values(), values());
            if ours {
                let measure = if depth == 8 { measure_average_8 } else { measure_average_16 };
                unsafe { assert_eq!(measure(a.as_ptr(), a.len(), b.as_ptr(), b.len(), sums.as_mut_ptr(), sums.len(), w, h, depth, rounds), 0) }
            } else if depth == 8 { rav1e_average::<u8>(&a, &b, &mut sums, w, h, depth, rounds) }
            else { rav1e_average::<u16>(&a, &b, &mut sums, w, h, depth, rounds) }
        }
        "prepare" => {
            let (w, h, c, r, mode, depth, rounds) = (n(3), n(4), n(5) as i32, n(6) as i32, n(7), n(8), n(9));
            let mut s = 9u64;
            let v: Vec<u16> = (0..192 * 192).map(|_| (next(&mut s) % (1 << depth)) as u16).collect();
            let mut tmp = vec![0i16; 128 * 128];
            if depth == 8 {
                let v: Vec<u8> = v.iter().map(|x| *x as u8).collect();
                if ours { unsafe { assert_eq!(measure_prepare_8(v.as_ptr(), v.len(), tmp.as_mut_ptr(), tmp.len(), w, h, c, r, mode as u8, depth, rounds), 0) } }
                else { rav1e_prepare::<u8>(&v, &mut tmp, w, h, c, r, mode as u8, depth, rounds) }
            } else if ours { unsafe { assert_eq!(measure_prepare_16(v.as_ptr(), v.len(), tmp.as_mut_ptr(), tmp.len(), w, h, c, r, mode as u8, depth, rounds), 0) } }
            else { rav1e_prepare::<u16>(&v, &mut tmp, w, h, c, r, mode as u8, depth, rounds) }
            for (sum, v) in sums.iter_mut().zip(&tmp) { *sum = *v as u32; }
        }
        _ => {
            let (w, h, c, r, mode, depth, rounds) = (n(3), n(4), n(5) as i32, n(6) as i32, n(7), n(8), n(9));
            let mut s = 9u64;
            let v: Vec<u16> = (0..192 * 192).map(|_| (next(&mut s) % (1 << depth)) as u16).collect();
            if depth == 8 {
                let v: Vec<u8> = v.iter().map(|x| *x as u8).collect();
                if ours { unsafe { assert_eq!(measure_put_8(v.as_ptr(), v.len(), sums.as_mut_ptr(), sums.len(), w, h, c, r, mode as u8, depth, rounds), 0) } }
                else { rav1e_put::<u8>(&v, &mut sums, w, h, c, r, mode as u8, depth, rounds) }
            } else if ours { unsafe { assert_eq!(measure_put_16(v.as_ptr(), v.len(), sums.as_mut_ptr(), sums.len(), w, h, c, r, mode as u8, depth, rounds), 0) } }
            else { rav1e_put::<u16>(&v, &mut sums, w, h, c, r, mode as u8, depth, rounds) }
        }
    }
    let d = sums.iter().fold(0u64, |d, x| d.wrapping_mul(31).wrapping_add(*x as u64));
    println!("{d}");
}
