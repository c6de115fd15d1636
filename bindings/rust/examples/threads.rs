//! Two threads predict blocks in two tiles of one plane.

use std::thread;
use tilgwaren::{BlockRoom, Error, MotionBlock, Place, RegionMut, put_8tap_8};

const SIDE: usize = 64;

// Copies each block of 16x16 of a tile from the start of a reference, half a sample to the right.
fn predict(mut tile: RegionMut<'_, u8>, reference: &[u8]) -> Result<(), Error> {
    let block = MotionBlock {
        width: 16,
        height: 16,
        fraction_x: 8,
        ..MotionBlock::default()
    };
    let from = Place {
        stride: SIDE,
        x: 3,
        y: 3,
    };
    let mut room = BlockRoom::new();
    for y in (0..tile.height()).step_by(16) {
        for x in (0..tile.width()).step_by(16) {
            tile.write(&mut room, x, y, 16, 16, |samples, to| {
                put_8tap_8(samples, to, reference, from, &block)
            })?;
        }
    }
    Ok(())
}

fn main() -> Result<(), Error> {
    let dark: Vec<u8> = (0..SIDE * SIDE).map(|i| (i % SIDE) as u8).collect();
    let light: Vec<u8> = dark.iter().map(|sample| sample + 100).collect();
    let mut plane = vec![0; SIDE * SIDE];
    let whole = RegionMut::new(&mut plane, 0, SIDE as isize, SIDE, SIDE)?;
    let (left, right) = whole.split_columns(SIDE / 2)?;
    thread::scope(|threads| {
        let other = threads.spawn(|| predict(right, &light));
        predict(left, &dark).and(other.join().expect("the thread ends"))
    })?;
    println!("row 0 beside the border of the tiles: {:?}", &plane[28..36]);
    Ok(())
}
