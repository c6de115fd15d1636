//! Rows of transforms: of one dimension, and of blocks.

use crate::block_rows::{Margins, Row, Signed, format_of, signed};
use crate::calls::{Numbers, TRANSFORM_HEIGHTS, TRANSFORM_WIDTHS, Transform, coded, has_type};
use crate::transform;
use crate::transform::inverse::*;

const NETWORK: u8 = 2;
const TRANSFORM: u8 = 3;

/// The transforms of one dimension by their numbers.
const NETWORKS: [fn(&[i32], &mut [i32], usize); 16] = [
    av1_idct4, av1_idct8, av1_idct16, av1_idct32, av1_idct64, av1_iadst4, av1_iadst8, av1_iadst16, av1_iflipadst4, av1_iflipadst8,
    av1_iflipadst16, av1_iidentity4, av1_iidentity8, av1_iidentity16, av1_iidentity32, av1_iwht4,
];

fn network(number: usize, range: u8, drawn: Signed, seed: u32) {
    let input = signed(&mut Numbers::new(u64::from(seed)), 64, drawn);
    let mut output = [-1i32; 64];
    NETWORKS[number](&input, &mut output, usize::from(range));
    let answer: Vec<u8> = output.iter().flat_map(|it| it.to_le_bytes()).collect();
    Row::of_kind(NETWORK).bytes(&[number as u8, range]).signed(drawn).four(seed).answered(0, &answer);
}

/// Every transform of one dimension, half of them at a range of 16 bits, and then each at every range and with every number of bits.
pub fn networks(pick: &mut Numbers) {
    for turn in 0..800 {
        let range = if turn / 16 % 2 == 0 { 16 } else { 8 + pick.below(13) };
        let bits = pick.one_of(&[range, range, range - 1, range / 2]) as u8;
        let drawn = Signed { bits, way: [0, 0, 1, 2][turn / 32 % 4], spare: pick.one_of(&[0, 0, 0, 1, 3]) };
        network(turn % 16, range as u8, drawn, pick.below(1 << 31) as u32);
    }
}

/// Every transform of one dimension at every range, in every way.
pub fn every_range(pick: &mut Numbers) {
    for number in 0..16 {
        for range in 8..=20 {
            for way in 0..3 {
                network(number, range, Signed { bits: range, way, spare: 0 }, pick.below(1 << 31) as u32);
            }
        }
    }
}

/// The pairs of size and type that AV1 has.
fn pairs() -> Vec<(u8, u8)> {
    let all = (0..19).flat_map(|size| (0..17).map(move |kind| (size, kind)));
    all.filter(|(size, kind)| has_type(usize::from(*size), *kind)).collect()
}

fn block(turn: usize, (size, kind): (u8, u8), drawn: Signed, margins: Margins, seed: u32) {
    let (number, format) = format_of(turn);
    let (width, height) = (TRANSFORM_WIDTHS[usize::from(size)], TRANSFORM_HEIGHTS[usize::from(size)]);
    let mut numbers = Numbers::new(u64::from(seed));
    let coefficients = signed(&mut numbers, coded(size), drawn);
    let target = margins.round(&mut numbers, width, height, format.depth, 0);
    let call = Transform { format, size, kind, coefficients, target };
    let answer = answer!(&call, format, transform);
    Row::of_kind(TRANSFORM).bytes(&[size, kind, number]).signed(drawn).margins(margins).four(seed).answered_shorts(0, &answer);
}

/// Every pair of size and type in every format, six times: many and few coefficients, of many and of few bits, and ends of ranges.
pub fn transforms(pick: &mut Numbers) {
    let pairs = pairs();
    for turn in 0..24 * pairs.len() {
        let full = format_of(turn).1.depth as u8 + 8;
        let bits = pick.one_of(&[full, full, full - 1, full - 3, full - 6]);
        let drawn = Signed { bits, way: pick.one_of(&[0, 0, 0, 1, 2]), spare: pick.one_of(&[0, 0, 2, 4, 8]) };
        let margins = Margins::pick(pick);
        block(turn, pairs[turn / 4 % pairs.len()], drawn, margins, pick.below(1 << 31) as u32);
    }
}

/// Every pair of size and type in every format, at the ends of the range of coefficients, and with few coefficients.
pub fn ends_and_few(pick: &mut Numbers) {
    let pairs = pairs();
    for turn in 0..8 * pairs.len() {
        let bits = format_of(turn).1.depth as u8 + 8;
        let drawn = if turn < 4 * pairs.len() { Signed { bits, way: 1, spare: 0 } } else { Signed { bits: bits - 2, way: 0, spare: 6 } };
        let margins = Margins::pick(pick);
        block(turn, pairs[turn / 4 % pairs.len()], drawn, margins, pick.below(1 << 31) as u32);
    }
}
