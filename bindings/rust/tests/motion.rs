//! Blocks of references: predicted, prepared, averaged, moved and rejected.

use tilgwaren::{
    BitDepth, Context, Error, Filter, MotionBlock, MotionPlane, MovedBlock, Place, Tested,
    mc_avg_8, mc_avg_16, prep_8tap_8, prep_moved_8, prep_moved_16, prep_tested_16, put_8tap_8,
    put_moved_8, put_moved_16, put_tested_16,
};

// A block of 4 columns and 2 rows between samples.
fn block() -> MotionBlock {
    MotionBlock {
        width: 4,
        height: 2,
        fraction_x: 5,
        fraction_y: 9,
        filter_x: Filter::Sharp,
        filter_y: Filter::Regular,
    }
}

fn place(stride: usize, x: usize, y: usize) -> Place {
    Place { stride, x, y }
}

// Of 12 columns, with a number for each place.
fn reference() -> Vec<u8> {
    (0..144).collect()
}

#[test]
fn whole_samples_are_copied_to_their_rectangle() {
    let still = MotionBlock {
        width: 4,
        height: 2,
        ..MotionBlock::default()
    };
    let (to, from) = (place(8, 3, 2), place(12, 4, 5));
    let mut samples = [255; 64];
    assert_eq!(
        put_8tap_8(&mut samples, to, &reference(), from, &still),
        Ok(())
    );
    for (i, sample) in samples.iter().enumerate() {
        let (row, column) = (i / 8, i % 8);
        let inside = (3..7).contains(&column) && (2..4).contains(&row);
        let copied = (12 * (row + 3) + column + 1) as u8;
        assert_eq!(*sample, if inside { copied } else { 255 });
    }
    let mut values = [0; 9];
    assert_eq!(prep_8tap_8(&mut values, &reference(), from, &still), Ok(()));
    let row = |first: i16| {
        [
            16 * first,
            16 * (first + 1),
            16 * (first + 2),
            16 * (first + 3),
        ]
    };
    assert_eq!(values[..8], [row(64), row(76)].concat());
    assert_eq!(values[8], 0);
    // The average of 64 .. 79 and of 0 in each place.
    let averaged = mc_avg_8(&mut samples, place(8, 1, 6), 4, 2, &values, &[0; 8]);
    assert_eq!(averaged, Ok(()));
    assert_eq!(samples[49..53], [32, 33, 33, 34]);
    assert_eq!(samples[57..61], [38, 39, 39, 40]);
}

// A block of one row, half a sample to the right, of a reference that is 0 and, from the block's
// third column on, 255.
fn beside_an_edge(width: usize, filter_x: Filter) -> Result<Vec<u8>, Error> {
    let reference: Vec<u8> = (0..256).map(|i| if i % 16 < 5 { 0 } else { 255 }).collect();
    let block = MotionBlock {
        width,
        height: 1,
        fraction_x: 8,
        filter_x,
        ..MotionBlock::default()
    };
    let mut samples = vec![7; width];
    let (to, from) = (place(width, 0, 0), place(16, 3, 3));
    put_8tap_8(&mut samples, to, &reference, from, &block)?;
    Ok(samples)
}

// The weights of half a sample in the specification's table Subpel_Filters are, for a dimension of
// at most 4, 0, 0, -12, 76, 76, -12, 0, 0 (regular) and 0, 0, 12, 52, 52, 12, 0, 0 (smooth); else
// -4, 12, -24, 80, 80, -24, 12, -4 (sharp).
#[test]
fn filters_have_the_weights_of_the_specification() -> Result<(), Error> {
    let regular = [0, 128, 255, 255];
    let smooth = [24, 128, 231, 255];
    let sharp = [0, 128, 255, 239, 255, 255, 255, 255];
    assert_eq!(beside_an_edge(4, Filter::Regular)?, regular);
    assert_eq!(beside_an_edge(4, Filter::Sharp)?, regular);
    assert_eq!(beside_an_edge(4, Filter::Smooth)?, smooth);
    assert_eq!(beside_an_edge(4, Filter::Rav1eSharp)?, smooth);
    assert_eq!(beside_an_edge(8, Filter::Sharp)?, sharp);
    assert_eq!(beside_an_edge(8, Filter::Rav1eSharp)?, sharp);
    assert_eq!(beside_an_edge(4, Filter::Bilinear)?, [0, 128, 255, 255]);
    Ok(())
}

#[test]
fn constant_references_stay_as_they_are() {
    let (mut values, mut samples) = ([0; 9], [0; 8]);
    let (to, from) = (place(4, 0, 0), place(12, 3, 3));
    let reference = Tested::new([500; 144], BitDepth::Ten).expect("no sample is past the depth");
    let prepared = prep_tested_16(&mut values, &reference, from, &block());
    assert_eq!(prepared, Ok(()));
    assert_eq!(values, [-192, -192, -192, -192, -192, -192, -192, -192, 0]);
    let averaged = mc_avg_16(&mut samples, to, 4, 2, &values, &values, BitDepth::Ten);
    assert_eq!((averaged, samples), (Ok(()), [500; 8]));
    let light = Tested::new([3000; 144], BitDepth::Twelve).expect("no sample is past the depth");
    let put = put_tested_16(&mut samples, to, &light, from, &block());
    assert_eq!((put, samples), (Ok(()), [3000; 8]));
}

#[test]
fn rejected_blocks_leave_the_samples_alone() {
    let (mut samples, mut values) = ([1; 64], [2; 8]);
    let reference = reference();
    let mut put =
        |to, from, block: MotionBlock| put_8tap_8(&mut samples, to, &reference, from, &block);
    let (to, from) = (place(8, 0, 0), place(12, 4, 5));
    let narrow = MotionBlock {
        width: 0,
        ..block()
    };
    assert_eq!(put(to, from, narrow), Err(Error::BadSize));
    let far = MotionBlock {
        fraction_y: 16,
        ..block()
    };
    assert_eq!(put(to, from, far), Err(Error::BadFraction));
    assert_eq!(put(place(8, 5, 0), from, block()), Err(Error::BadArea));
    assert_eq!(
        put(to, place(12, 4, usize::MAX), block()),
        Err(Error::BadArea)
    );
    assert_eq!(samples, [1; 64]);
    let short = prep_8tap_8(&mut values[..7], &reference, from, &block());
    assert_eq!(short, Err(Error::TooShort));
    assert_eq!(values, [2; 8]);
    let past = Tested::new([300; 144], BitDepth::Eight).err();
    assert_eq!(past, Some(Error::BadSample));
}

// A plane of chroma in 4:2:2, with other samples around it.
fn plane() -> MotionPlane {
    MotionPlane {
        stride: 66,
        x: 1,
        y: 2,
        width: 64,
        height: 32,
        halved_columns: true,
        halved_rows: false,
    }
}

fn moved(row: i16, col: i16) -> MovedBlock {
    MovedBlock {
        x: 8,
        y: 16,
        width: 8,
        height: 4,
        mv_y: row,
        mv_x: col,
        ..MovedBlock::default()
    }
}

// Sample (x, y) of the plane is 2x + y, and the others are 255.
fn sloping() -> Vec<u8> {
    let plane = plane();
    let sample = |i: usize| match (i % plane.stride, i / plane.stride) {
        (x @ 1..=64, y) if y >= 2 => (2 * (x - 1) + y - 2) as u8,
        _ => 255,
    };
    (0..plane.stride * (plane.y + plane.height))
        .map(sample)
        .collect()
}

// What is read at column x of row y, whole samples further on than a vector leads.
fn nearest(x: i64, y: i64) -> u8 {
    (2 * x.clamp(0, 63) + y.clamp(0, 31)) as u8
}

#[test]
fn outside_the_plane_each_sample_is_the_nearest() -> Result<(), Error> {
    let samples = sloping();
    let deep: Vec<u16> = samples.iter().map(|sample| u16::from(*sample)).collect();
    let tested = Tested::new(&deep, BitDepth::Ten)?;
    let mut context = Context::new();
    // So many samples down and to the right.
    for (down, right) in [(0, 0), (3, -5), (-40, 9), (7, 300), (-17, -12)] {
        let block = moved(8 * down as i16, 16 * right as i16);
        let wanted: Vec<u8> = (0..32)
            .map(|i| nearest(8 + i % 8 + right, 16 + i / 8 + down))
            .collect();
        let rows = |samples: &[u8]| {
            samples
                .chunks(9)
                .flat_map(|row| row[1..].to_vec())
                .collect::<Vec<_>>()
        };
        let (mut put, mut values) = ([0; 36], [5; 33]);
        put_moved_8(
            &mut put,
            place(9, 1, 0),
            &samples,
            &plane(),
            &block,
            &mut context,
        )?;
        prep_moved_8(&mut values, &samples, &plane(), &block, &mut context)?;
        assert_eq!((rows(&put), put[0], values[32]), (wanted.clone(), 0, 5));
        assert!(
            wanted
                .iter()
                .zip(values)
                .all(|(sample, value)| 16 * i16::from(*sample) == value)
        );
        let (mut put, mut values) = ([0; 36], [5; 33]);
        put_moved_16(
            &mut put,
            place(9, 1, 0),
            &tested,
            &plane(),
            &block,
            &mut context,
        )?;
        prep_moved_16(&mut values, &tested, &plane(), &block, &mut context)?;
        assert_eq!(
            (rows(&put.map(|sample| sample as u8)), put[9], values[32]),
            (wanted.clone(), 0, 5)
        );
        let prepared = |sample: &u8| 16 * i16::from(*sample) - 8192;
        assert!(wanted.iter().map(prepared).eq(values[..32].iter().copied()));
    }
    Ok(())
}

#[test]
fn rejected_moves_write_nothing() {
    let (reference, to) = (sloping(), place(8, 0, 0));
    let mut context = Context::new();
    let mut samples = [7; 32];
    let mut put =
        |to, plane, block| put_moved_8(&mut samples, to, &reference, &plane, &block, &mut context);
    let block = moved(0, 0);
    let narrow = MovedBlock { width: 0, ..block };
    assert_eq!(put(to, plane(), narrow), Err(Error::BadSize));
    assert_eq!(
        put(Place { y: 1, ..to }, plane(), block),
        Err(Error::BadArea)
    );
    let past = MotionPlane { x: 3, ..plane() };
    assert_eq!(put(to, past, block), Err(Error::BadArea));
    assert_eq!(samples, [7; 32]);
}
