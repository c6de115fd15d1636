//! Reconstructs one block in a plane of 64x64: predicts it from a reference, or from its edges if
//! the argument is `intra`, and adds a residual.

use std::env;
use tilgwaren::{
    BlockSize, Context, EdgeBlock, EdgePlane, MotionPlane, MovedBlock, Place, PredictionMode,
    TransformBlock, TxSize,
};

const SIDE: usize = 64;

// The column and the row of the block of 8x8.
const X: usize = 24;
const Y: usize = 16;

// Predicts the block from a reference, 3 samples to the left and a quarter of a sample down.
fn predict_from(
    context: &mut Context,
    reference: &[u8],
    plane: &mut [u8],
) -> Result<(), tilgwaren::Error> {
    let visible = MotionPlane {
        stride: SIDE,
        width: SIDE,
        height: SIDE,
        ..MotionPlane::default()
    };
    let block = MovedBlock {
        x: X,
        y: Y,
        width: 8,
        height: 8,
        mv_y: 2,
        mv_x: -24,
        ..MovedBlock::default()
    };
    let to = Place {
        stride: SIDE,
        x: X,
        y: Y,
    };
    tilgwaren::put_moved_8(plane, to, reference, &visible, &block, context)
}

// Predicts the block by a smooth mode from the samples around it.
fn predict_within(plane: &mut [u8]) -> Result<(), tilgwaren::Error> {
    let block = EdgeBlock {
        mode: Some(PredictionMode::Smooth),
        ..EdgeBlock::of_luma(X, Y, BlockSize::B8x8, TxSize::T8x8)
    };
    tilgwaren::predict_in_plane_8(
        plane,
        &EdgePlane::of_luma(SIDE, SIDE),
        &block,
        false,
        &[],
        0,
    )
}

fn main() -> Result<(), tilgwaren::Error> {
    let mut context = Context::new(); // one for each thread
    let mut plane: Vec<u8> = (0..SIDE * SIDE).map(|i| (2 * (i % SIDE)) as u8).collect();
    if env::args().nth(1).as_deref() == Some("intra") {
        predict_within(&mut plane)?;
    } else {
        let reference = plane.clone();
        predict_from(&mut context, &reference, &mut plane)?;
    }
    println!("predicted:     {:?}", &plane[SIDE * Y + X..][..8]);
    let transform = TransformBlock {
        tx_size: TxSize::T8x8,
        x: X,
        y: Y,
        ..TransformBlock::default()
    };
    tilgwaren::inverse_transform_add_8(&mut context, &[160], &mut plane, SIDE, transform)?;
    println!("reconstructed: {:?}", &plane[SIDE * Y + X..][..8]);
    Ok(())
}
