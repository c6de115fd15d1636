// The answers of rav1e's own functions to calls on blocks (`calls.rs`), for recorders that have the modules of its files and `stubs.rs`.

use calls::{Average, Edges, Intra, Luma, Motion, Prepare, Put, Rectangle, Transform};
use context::{BlockOffset, TileBlockOffset};
use cpu_features::CpuFeatureLevel;
use frame::{Plane, PlaneConfig, PlaneOffset};
use mc::FilterMode;
use partition::{BlockSize, IntraEdge, IntraEdgeBuffer};
use predict::{IntraEdgeFilterParameters, IntraParam, PredictionMode};
use std::mem::MaybeUninit;
use tiling::{PlaneRegion, PlaneRegionMut, Rect, TileRect};
use transform::{TxSize, TxType};
use util::{Aligned, Pixel};

// rav1e's enums by number.
const TRANSFORM_SIZES: [TxSize; 19] = {
    use TxSize::*;
    [
        TX_4X4, TX_8X8, TX_16X16, TX_32X32, TX_64X64, TX_4X8, TX_8X4, TX_8X16, TX_16X8, TX_16X32, TX_32X16, TX_32X64, TX_64X32, TX_4X16,
        TX_16X4, TX_8X32, TX_32X8, TX_16X64, TX_64X16,
    ]
};
const TRANSFORM_TYPES: [TxType; 17] = {
    use TxType::*;
    [
        DCT_DCT, ADST_DCT, DCT_ADST, ADST_ADST, FLIPADST_DCT, DCT_FLIPADST, FLIPADST_FLIPADST, ADST_FLIPADST, FLIPADST_ADST, IDTX, V_DCT,
        H_DCT, V_ADST, H_ADST, V_FLIPADST, H_FLIPADST, WHT_WHT,
    ]
};
const BLOCK_SIZES: [BlockSize; 22] = {
    use BlockSize::*;
    [
        BLOCK_4X4, BLOCK_4X8, BLOCK_8X4, BLOCK_8X8, BLOCK_8X16, BLOCK_16X8, BLOCK_16X16, BLOCK_16X32, BLOCK_32X16, BLOCK_32X32,
        BLOCK_32X64, BLOCK_64X32, BLOCK_64X64, BLOCK_64X128, BLOCK_128X64, BLOCK_128X128, BLOCK_4X16, BLOCK_16X4, BLOCK_8X32, BLOCK_32X8,
        BLOCK_16X64, BLOCK_64X16,
    ]
};
const MODES: [PredictionMode; 14] = {
    use PredictionMode::*;
    [
        DC_PRED, V_PRED, H_PRED, D45_PRED, D135_PRED, D113_PRED, D157_PRED, D203_PRED, D67_PRED, SMOOTH_PRED, SMOOTH_V_PRED,
        SMOOTH_H_PRED, PAETH_PRED, UV_CFL_PRED,
    ]
};
const FILTERS: [FilterMode; 4] = [FilterMode::REGULAR, FilterMode::SMOOTH, FilterMode::SHARP, FilterMode::BILINEAR];

// ---- samples of rav1e's types

fn own<T: Pixel>(samples: &[u16]) -> Vec<T> {
    samples.iter().map(|sample| T::cast_from(*sample)).collect()
}

fn numbers<T: Pixel>(samples: &[T]) -> Vec<u16> {
    samples.iter().map(|sample| (*sample).as_()).collect()
}

/// The plane that a rectangle lies in, all of it visible.
fn plane<T: Pixel>(it: &Rectangle, dec: (u8, u8)) -> Plane<T> {
    let cfg = PlaneConfig {
        stride: it.stride,
        width: it.x + it.width,
        height: it.y + it.height,
        xdec: usize::from(dec.0),
        ydec: usize::from(dec.1),
    };
    Plane { data: own(&it.samples), cfg }
}

fn rect(it: &Rectangle) -> Rect {
    Rect { x: it.x as isize, y: it.y as isize, width: it.width, height: it.height }
}

/// All samples of a target after a function has written to its rectangle.
fn written<T: Pixel>(target: &Rectangle, write: impl FnOnce(&mut PlaneRegionMut<'_, T>)) -> Vec<u16> {
    let mut plane = plane(target, (0, 0));
    write(&mut PlaneRegionMut::new(&mut plane, rect(target)));
    numbers(&plane.data)
}

// ---- the answers

fn transform<T: Pixel>(call: &Transform) -> Vec<u16> {
    let size = TRANSFORM_SIZES[usize::from(call.size)];
    let kind = TRANSFORM_TYPES[usize::from(call.kind)];
    let coefficients: Vec<T::Coeff> = call.coefficients.iter().map(|it| util::CastFromPrimitive::cast_from(*it)).collect();
    written::<T>(&call.target, |region| {
        transform::inverse_transform_add(&coefficients, region, 0, size, kind, call.format.depth as usize, CpuFeatureLevel)
    })
}

/// The filters and fractions of a motion: across and down.
fn moved(motion: &Motion) -> (FilterMode, FilterMode, i32, i32) {
    let filter = |number| FILTERS[usize::from(number)];
    (filter(motion.filter_across), filter(motion.filter_down), i32::from(motion.across), i32::from(motion.down))
}

fn place(it: &Rectangle) -> PlaneOffset {
    PlaneOffset { x: it.x as isize, y: it.y as isize }
}

fn put<T: Pixel>(call: &Put) -> Vec<u16> {
    let Motion { source, format, .. } = &call.motion;
    let from = plane::<T>(source, (0, 0));
    let at = from.slice(place(source));
    let (filter_across, filter_down, across, down) = moved(&call.motion);
    written::<T>(&call.target, |region| {
        mc::put_8tap(
            region, at, source.width, source.height, across, down, filter_across, filter_down, format.depth as usize, CpuFeatureLevel,
        )
    })
}

fn prepare<T: Pixel>(call: &Prepare) -> Vec<u16> {
    let Motion { source, format, .. } = &call.motion;
    let from = plane::<T>(source, (0, 0));
    let at = from.slice(place(source));
    let (filter_across, filter_down, across, down) = moved(&call.motion);
    let mut values = call.values.clone();
    mc::prep_8tap(
        &mut values, at, source.width, source.height, across, down, filter_across, filter_down, format.depth as usize, CpuFeatureLevel,
    );
    values.iter().map(|it| *it as u16).collect()
}

fn average<T: Pixel>(call: &Average) -> Vec<u16> {
    let Average { first, second, target, format } = call;
    written::<T>(target, |region| {
        mc::mc_avg(region, first, second, target.width, target.height, format.depth as usize, CpuFeatureLevel)
    })
}

/// An edge of rav1e's type: the left side ends before the corner, which stands in the middle, and the side above begins behind it.
fn edge<'a, T: Pixel>(buffer: &'a mut IntraEdgeBuffer<T>, call: &Intra) -> IntraEdge<'a, T> {
    let whole = [&call.left[..], &[call.corner], &call.above].concat();
    buffer.data.fill(MaybeUninit::new(T::zero()));
    for (place, sample) in buffer.data[128 - call.left.len()..].iter_mut().zip(own::<T>(&whole)) {
        place.write(sample);
    }
    IntraEdge::new(buffer, call.left.len(), call.above.len())
}

/// The frame's first place of a block that is predicted, and of its tile where the block doesn't begin it.
const FIRST: usize = 64;

/// The target's rectangle as one that begins at column and row `FIRST` of a frame with these visible sides.
fn predicted<T: Pixel>(call: &Intra, predict: impl FnOnce(&mut PlaneRegionMut<'_, T>)) -> Vec<u16> {
    let target = &call.target;
    let mut plane = plane(target, (0, 0));
    plane.cfg.width = FIRST + call.visible_columns;
    plane.cfg.height = FIRST + call.visible_rows;
    let place = Rect { x: FIRST as isize, y: FIRST as isize, ..rect(target) };
    predict(&mut PlaneRegionMut::placed(&mut plane, place, (target.x, target.y)));
    numbers(&plane.data)
}

fn filter_parameters(call: &Intra) -> Option<IntraEdgeFilterParameters> {
    let smooth = Some(PredictionMode::SMOOTH_PRED);
    match call.filter {
        0 => None,
        1 => Some(IntraEdgeFilterParameters::default()),
        _ => Some(IntraEdgeFilterParameters { above_mode: smooth, ..Default::default() }),
    }
}

fn intra<T: Pixel>(call: &Intra) -> Vec<u16> {
    let mode = MODES[usize::from(call.mode)];
    let tile = TileRect { x: FIRST * usize::from(1 - call.sides % 2), y: FIRST * usize::from(1 - call.sides / 2) };
    let parameter = if mode.is_cfl() { IntraParam::Alpha(call.alpha) } else { IntraParam::AngleDelta(call.step) };
    let size = TRANSFORM_SIZES[usize::from(call.size)];
    let mut buffer = Aligned::uninit_array();
    let edge = edge::<T>(&mut buffer, call);
    predicted::<T>(call, |region| {
        mode.predict_intra(
            tile, region, size, call.format.depth as usize, &call.differences, parameter, filter_parameters(call), &edge, CpuFeatureLevel,
        )
    })
}

fn luma<T: Pixel>(call: &Luma) -> Vec<u16> {
    let from = plane::<T>(&call.luma, (0, 0));
    let region = PlaneRegion::new(&from, rect(&call.luma));
    let block = BLOCK_SIZES[usize::from(call.block)];
    let mut differences: Vec<_> = call.differences.iter().map(|it| MaybeUninit::new(*it)).collect();
    let write = match (call.xdec, call.ydec) {
        (0, 0) => predict::rust::pred_cfl_ac::<T, 0, 0>,
        (1, 0) => predict::rust::pred_cfl_ac::<T, 1, 0>,
        _ => predict::rust::pred_cfl_ac::<T, 1, 1>,
    };
    write(&mut differences, &region, block, call.pads.0, call.pads.1, CpuFeatureLevel);
    // SAFETY: each entry was written above.
    differences.iter().map(|it| unsafe { it.assume_init() } as u16).collect()
}

/// The edge that is prepared: the left side, the corner and the side above.
fn edges<T: Pixel>(call: &Edges) -> (Vec<u16>, u16, Vec<u16>) {
    let visible = &call.plane;
    let plane = plane::<T>(visible, (call.xdec, call.ydec));
    let tile = Rect {
        x: (visible.x + call.tile.0) as isize,
        y: (visible.y + call.tile.1) as isize,
        width: call.tile_sides.0,
        height: call.tile_sides.1,
    };
    let (x, y) = call.place();
    let mut buffer = Aligned::uninit_array();
    let edge = partition::get_intra_edges(
        &mut buffer,
        &PlaneRegion::new(&plane, tile),
        TileBlockOffset(BlockOffset { x: call.cell.0, y: call.cell.1 }),
        call.unit.0,
        call.unit.1,
        BLOCK_SIZES[usize::from(call.block)],
        PlaneOffset { x: x as isize, y: y as isize },
        TRANSFORM_SIZES[usize::from(call.size)],
        call.format.depth as usize,
        call.mode.map(|mode| MODES[usize::from(mode)]),
        call.filter,
        if call.step == 0 { IntraParam::None } else { IntraParam::AngleDelta(call.step) },
    );
    let (left, corner, above) = edge.as_slices();
    (numbers(left), numbers(corner)[0], numbers(above))
}

/// The answer to a call, in the samples that it is of.
macro_rules! answer {
    ($call:expr, $format:expr, $answer:ident) => {
        if $format.wide { $answer::<u16>($call) } else { $answer::<u8>($call) }
    };
}
