//! Regions: split, read, called on, and worked on by threads.

use tilgwaren::{
    BlockRoom, Context, Error, Filter, MotionBlock, Place, Region, RegionMut, TransformBlock,
    TxSize, inverse_transform_add_8, put_8tap_8,
};

const STRIDE: usize = 40;
const COLUMNS: usize = 37;
const ROWS: usize = 24;

/// A plane whose last row ends with its own samples.
fn plane() -> Vec<u8> {
    (0..STRIDE * (ROWS - 1) + COLUMNS)
        .map(|i| (i * 7) as u8)
        .collect()
}

fn whole(samples: &mut [u8]) -> RegionMut<'_, u8> {
    RegionMut::new(samples, 0, STRIDE as isize, COLUMNS, ROWS).expect("it lies in the samples")
}

#[test]
fn rows_and_columns_are_those_of_the_plane() -> Result<(), Error> {
    let mut samples = plane();
    let (left, right) = whole(&mut samples).split_columns(10)?;
    let (above, mut below) = right.split_rows(20)?;
    assert_eq!((left.width(), left.height()), (10, ROWS));
    assert_eq!((above.width(), above.height()), (COLUMNS - 10, 20));
    assert_eq!((below.width(), below.height()), (COLUMNS - 10, ROWS - 20));
    assert_eq!(left.row(3), Some(&plane()[3 * STRIDE..][..10]));
    assert_eq!(
        above.row(19),
        Some(&plane()[19 * STRIDE + 10..][..COLUMNS - 10])
    );
    assert_eq!((above.row(20), below.row_mut(4)), (None, None));
    below.row_mut(3).expect("a row")[26] = 99;
    below.reborrow().row_mut(0).expect("a row")[0] = 98;
    assert_eq!(below.split_rows(5).err(), Some(Error::BadArea));
    let mut expected = plane();
    expected[20 * STRIDE + 10] = 98;
    *expected.last_mut().expect("there are samples") = 99;
    assert_eq!(samples, expected);
    Ok(())
}

#[test]
fn parts_may_be_empty() -> Result<(), Error> {
    let mut samples = plane();
    let (left, right) = whole(&mut samples).split_columns(0)?;
    assert_eq!(
        (left.row(ROWS - 1), right.width()),
        (Some(&[][..]), COLUMNS)
    );
    let (above, below) = right.split_rows(ROWS)?;
    assert_eq!((above.height(), below.height()), (ROWS, 0));
    assert_eq!(RegionMut::<u8>::new(&mut [], 0, 0, 0, 0).err(), None);
    Ok(())
}

#[test]
fn a_plane_may_stand_upside_down() {
    let mut samples = plane();
    let last = STRIDE * (ROWS - 1);
    let region = RegionMut::new(&mut samples, last, -(STRIDE as isize), COLUMNS, ROWS);
    let mut region = region.expect("it lies in the samples");
    assert_eq!(region.row(0), Some(&plane()[last..]));
    assert_eq!(region.row(ROWS - 1), Some(&plane()[..COLUMNS]));
    let room = &mut BlockRoom::new();
    let called = region.call(room, 1, ROWS - 1, 2, 1, |block, to| {
        assert_eq!((block.len(), to.stride, to.x, to.y), (2, 2, 0, 0));
        block.fill(5);
        Ok(())
    });
    assert_eq!(called, Ok(()));
    assert_eq!(samples[..4], [0, 5, 5, 21]);
}

#[test]
fn regions_lie_in_their_samples() {
    let fits = |len, first, stride, width, height| {
        let mut samples = vec![0u8; len];
        RegionMut::new(&mut samples, first, stride, width, height).map(|_| ())
    };
    assert_eq!(fits(13, 0, 5, 3, 3), Ok(()));
    assert_eq!(fits(12, 0, 5, 3, 3), Err(Error::BadArea));
    assert_eq!(fits(13, 1, 5, 3, 3), Err(Error::BadArea));
    assert_eq!(fits(13, 10, -5, 3, 3), Ok(()));
    assert_eq!(fits(13, 9, -5, 3, 3), Err(Error::BadArea));
    assert_eq!(fits(13, 0, 2, 3, 3), Err(Error::BadArea));
    assert_eq!(fits(3, 0, 0, 3, 1), Ok(()));
    for stride in [isize::MAX, isize::MIN] {
        assert_eq!(fits(13, 0, stride, 3, usize::MAX), Err(Error::BadArea));
        assert_eq!(fits(13, usize::MAX, stride, 3, 3), Err(Error::BadArea));
    }
    assert_eq!(fits(13, 0, 5, usize::MAX, 1), Err(Error::BadArea));
}

/// Rows of all widths of transforms and of others are copied to a call and back, and nothing beside them.
#[test]
fn calls_have_just_their_rectangle() -> Result<(), Error> {
    let room = &mut BlockRoom::new();
    for (width, height) in [(1, 3), (4, 4), (5, 2), (8, 16), (16, 4), (32, 8), (37, 24)] {
        let (x, y) = (COLUMNS - width, ROWS - height);
        let at = |i: usize| (y + i / width) * STRIDE + x + i % width;
        let (mut samples, mut expected) = (plane(), plane());
        let mut region = whole(&mut samples);
        region.call(room, x, y, width, height, |block, to| {
            assert_eq!(
                (to.stride, to.x, to.y, block.len()),
                (width, 0, 0, width * height)
            );
            for (i, sample) in block.iter_mut().enumerate() {
                assert_eq!(*sample, plane()[at(i)]);
                *sample ^= 0x55;
            }
            Ok(())
        })?;
        (0..width * height).for_each(|i| expected[at(i)] ^= 0x55);
        region
            .as_region()
            .call(room, x, y, width, height, |block, to| {
                assert_eq!((to.stride, block.len()), (width, width * height));
                assert!(
                    block
                        .iter()
                        .enumerate()
                        .all(|(i, sample)| *sample == expected[at(i)])
                );
                Ok(())
            })?;
        region.write(room, x, y, width, height, |block, _| {
            block.fill(9);
            Ok(())
        })?;
        (0..width * height).for_each(|i| expected[at(i)] = 9);
        assert_eq!(samples, expected);
    }
    Ok(())
}

#[test]
fn regions_are_read() {
    let samples = plane();
    let last = STRIDE * (ROWS - 1);
    let read = |first, stride| Region::new(&samples, first, stride, COLUMNS, ROWS);
    let upright = read(0, STRIDE as isize).expect("it lies in the samples");
    let flipped = read(last, -(STRIDE as isize)).expect("it lies in the samples");
    assert_eq!((upright.width(), upright.height()), (COLUMNS, ROWS));
    assert!((0..ROWS).all(|y| upright.row(y) == flipped.row(ROWS - 1 - y)));
    assert_eq!(flipped.row(0), Some(&samples[last..]));
    assert_eq!(read(1, STRIDE as isize).err(), Some(Error::BadArea));
}

/// Regions of an encoder's own, by pointers into a plane that it has split.
#[test]
fn regions_are_made_of_pointers() -> Result<(), Error> {
    let mut samples = plane();
    let first = samples.as_mut_ptr();
    let place = |x: usize| first.wrapping_add(STRIDE + x);
    // SAFETY: the two rectangles lie in the samples, side by side, and nothing else is done with the samples meanwhile.
    let (mut left, right) = unsafe {
        (
            RegionMut::from_raw_parts(place(0), STRIDE as isize, 8, 4),
            Region::from_raw_parts(place(8), STRIDE as isize, 8, 4),
        )
    };
    let room = &mut BlockRoom::new();
    let other = &mut BlockRoom::new();
    left.write(room, 0, 0, 8, 4, |to, _| {
        right.call(other, 0, 0, 8, 4, |from, _| {
            to.copy_from_slice(from);
            Ok(())
        })
    })?;
    let mut expected = plane();
    for y in 1..5 {
        expected.copy_within(y * STRIDE + 8..y * STRIDE + 16, y * STRIDE);
    }
    assert_eq!(samples, expected);
    Ok(())
}

#[test]
fn refused_calls_leave_the_samples_alone() {
    let mut samples = plane();
    let mut region = whole(&mut samples);
    let room = &mut BlockRoom::new();
    let refuse = |block: &mut [u8], _| {
        block.fill(0);
        Err::<(), Error>(Error::BadMode)
    };
    assert_eq!(region.call(room, 0, 0, 4, 4, refuse), Err(Error::BadMode));
    assert_eq!(region.write(room, 0, 0, 4, 4, refuse), Err(Error::BadMode));
    for (x, y, width, height) in [
        (COLUMNS, 0, 1, 1),
        (0, ROWS - 3, 4, 4),
        (usize::MAX, 0, 4, 4),
        (0, 4, 4, usize::MAX),
    ] {
        let refused = region.call(room, x, y, width, height, |_, _| Ok(()));
        assert_eq!(refused, Err(Error::BadArea));
        let refused = region.write(room, x, y, width, height, |_, _| Ok(()));
        assert_eq!(refused, Err(Error::BadArea));
        let read = region.as_region();
        let refused = read.call(room, x, y, width, height, |_, _| Ok(()));
        assert_eq!(refused, Err(Error::BadArea));
    }
    assert_eq!(samples, plane());
}

/// Moves each block of 8x8 of a region, and adds a residual to it.
fn work(region: &mut RegionMut<'_, u8>, seed: u8) -> Result<(), Error> {
    let reference: Vec<u8> = (0..=255).map(|i: u8| i.wrapping_mul(seed)).collect();
    let (mut context, mut room) = (Context::new(), BlockRoom::new());
    let block = MotionBlock {
        width: 8,
        height: 8,
        fraction_x: 3,
        fraction_y: 11,
        filter_x: Filter::Regular,
        filter_y: Filter::Smooth,
    };
    let from = Place {
        stride: 16,
        x: 3,
        y: 3,
    };
    for y in (0..region.height()).step_by(8) {
        for x in (0..region.width()).step_by(8) {
            region.write(&mut room, x, y, 8, 8, |samples, to| {
                put_8tap_8(samples, to, &reference, from, &block)
            })?;
            region.call(&mut room, x, y, 8, 8, |samples, to| {
                let transform = TransformBlock {
                    tx_size: TxSize::T8x8,
                    x: to.x,
                    y: to.y,
                    ..TransformBlock::default()
                };
                let coefficients = [300, -70, 9];
                inverse_transform_add_8(&mut context, &coefficients, samples, to.stride, transform)
            })?;
        }
    }
    Ok(())
}

/// Eight tiles side by side, each of 32 columns.
fn tiles(samples: &mut [u8], stride: usize) -> Vec<RegionMut<'_, u8>> {
    let mut rest = RegionMut::new(samples, 0, stride as isize, 256, 64).expect("it lies in them");
    let mut tiles = Vec::new();
    for _ in 0..8 {
        let (tile, others) = rest.split_columns(32).expect("so many");
        tiles.push(tile);
        rest = others;
    }
    tiles
}

#[test]
fn threads_work_on_tiles_of_one_plane() -> Result<(), Error> {
    let stride = 263;
    let (mut samples, mut expected) = (vec![1; 263 * 64], vec![1; 263 * 64]);
    std::thread::scope(|threads| {
        for (i, mut tile) in tiles(&mut samples, stride).into_iter().enumerate() {
            threads.spawn(move || {
                for turn in 0..20 {
                    work(&mut tile, (turn + i) as u8).expect("good arguments");
                }
            });
        }
    });
    for (i, mut tile) in tiles(&mut expected, stride).into_iter().enumerate() {
        work(&mut tile, 19 + i as u8)?;
    }
    assert_eq!(samples, expected);
    Ok(())
}
