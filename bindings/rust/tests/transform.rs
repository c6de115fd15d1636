//! Residuals, added to samples and rejected.

use tilgwaren::{
    BitDepth, Context, Error, TransformBlock, TxSize, TxType, coefficients_len,
    inverse_transform_add_8, inverse_transform_add_16, inverse_transform_add_rav1e_16,
};

// A block of 4x4 by the cosine transform both ways.
fn block_at(x: usize, y: usize) -> TransformBlock {
    TransformBlock {
        x,
        y,
        ..TransformBlock::default()
    }
}

// A constant coefficient of 100 lifts each sample of 4x4 by 3.
#[test]
fn a_residual_is_added_to_its_rectangle() {
    let mut context = Context::new();
    let mut samples = [128; 64];
    let added = inverse_transform_add_8(&mut context, &[100], &mut samples, 8, block_at(3, 2));
    assert_eq!(added, Ok(()));
    for (i, sample) in samples.iter().enumerate() {
        let inside = (3..7).contains(&(i % 8)) && (2..6).contains(&(i / 8));
        assert_eq!(*sample, if inside { 131 } else { 128 });
    }
}

// The identity of 4x4 gives back a fourth of each coefficient, after its row and column are swapped.
#[test]
fn coefficients_are_ordered_column_by_column() {
    let identity = TransformBlock {
        tx_type: TxType::Identity,
        ..block_at(0, 0)
    };
    let mut samples = [100; 16];
    let context = &mut Context::new();
    let added = inverse_transform_add_8(context, &[0, 0, 0, 80], &mut samples, 4, identity);
    assert_eq!(added, Ok(()));
    assert_eq!((samples[0], samples[3], samples[12]), (100, 100, 110));
}

// AV1's scan: the row and the column of each coefficient.
fn scan(width: usize, height: usize, tx_type: TxType) -> Vec<(usize, usize)> {
    let mut places: Vec<_> = (0..width * height)
        .map(|i| (i / width, i % width))
        .collect();
    match tx_type {
        TxType::VDct | TxType::VAdst | TxType::VFlipAdst => {}
        TxType::HDct | TxType::HAdst | TxType::HFlipAdst => places.sort_by_key(|&(r, c)| (c, r)),
        _ => places.sort_by_key(|&(r, c)| {
            let goes_down = width < height || (width == height && (r + c) % 2 == 1);
            (r + c, if goes_down { r } else { c })
        }),
    }
    places
}

#[test]
fn coefficients_up_to_an_end_of_block() {
    for &size in TxSize::ALL {
        for &tx_type in TxType::ALL {
            let (width, height) = (size.width().min(32), size.height().min(32));
            let mut len = 0;
            assert_eq!(coefficients_len(size, tx_type, 0), 0);
            for (i, (row, column)) in scan(width, height, tx_type).into_iter().enumerate() {
                len = len.max(column * height + row + 1);
                assert_eq!(
                    coefficients_len(size, tx_type, i + 1),
                    len,
                    "{size} {tx_type} {i}"
                );
            }
            assert_eq!(coefficients_len(size, tx_type, usize::MAX), len);
        }
    }
}

#[test]
fn rejected_blocks_leave_the_samples_alone() {
    let mut context = Context::new();
    let mut samples = [128; 64];
    let mut rejection =
        |stride, block| inverse_transform_add_8(&mut context, &[100], &mut samples, stride, block);
    let sine = TransformBlock {
        tx_size: TxSize::T32x32,
        tx_type: TxType::AdstDct,
        ..block_at(0, 0)
    };
    assert_eq!(rejection(8, sine), Err(Error::BadType));
    assert_eq!(rejection(8, block_at(5, 0)), Err(Error::BadArea));
    assert_eq!(rejection(8, block_at(0, usize::MAX)), Err(Error::BadArea));
    assert_eq!(rejection(0, block_at(0, 0)), Err(Error::BadArea));
    assert_eq!(samples, [128; 64]);
}

#[test]
fn large_coefficients_are_rejected() {
    let context = &mut Context::new();
    let mut samples = [512; 16];
    let mut coefficients = [0; 16];
    coefficients[15] = (1 << 17) + 1;
    let (block, depth) = (block_at(0, 0), BitDepth::Ten);
    let added = inverse_transform_add_16(context, &coefficients, &mut samples, 4, block, depth);
    assert_eq!((added, samples), (Err(Error::BadCoefficient), [512; 16]));
}

#[test]
fn rules_differ_where_an_identity_passes_32_bits() {
    let context = &mut Context::new();
    let (mut by_av1, mut by_rav1e) = ([0; 16], [0; 16]);
    let identity = TransformBlock {
        tx_type: TxType::Identity,
        ..block_at(0, 0)
    };
    let (given, depth) = ([400_000], BitDepth::Twelve);
    let added = inverse_transform_add_16(context, &given, &mut by_av1, 4, identity, depth);
    assert_eq!((added, by_av1[0]), (Ok(()), 4095));
    let added = inverse_transform_add_rav1e_16(context, &given, &mut by_rav1e, 4, identity, depth);
    assert_eq!((added, by_rav1e[0]), (Ok(()), 0));
}
