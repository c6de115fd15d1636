//! Intra prediction: from given edges, in a plane, from an edge that is kept, and in a tile.

use tilgwaren::{
    BitDepth, BlockRoom, BlockSize, CflBlock, EDGE_SAMPLES, EdgeBlock, EdgePlane, Error,
    IntraBlock, IntraEdge, LumaBlock, Place, PredictionMode, RegionMut, Sampling, TxSize, cfl_ac_8,
    cfl_ac_16, cfl_block_of, intra_edge_8, intra_edge_16, predict_cfl_8, predict_cfl_16,
    predict_in_plane_8, predict_in_plane_16, predict_in_tile_8, predict_in_tile_16,
    predict_intra_8, predict_intra_16,
};

fn block(mode: PredictionMode) -> IntraBlock {
    IntraBlock {
        mode,
        has_left: true,
        visible_columns: 4,
        visible_rows: 4,
        ..IntraBlock::default()
    }
}

// The block of 4x4 within 6 rows of 6 samples.
const PLACE: Place = Place {
    stride: 6,
    x: 1,
    y: 1,
};

// The samples of that block in each row.
fn rows<T: Copy>(samples: &[T]) -> Vec<[T; 4]> {
    let row = |r: usize| [1, 2, 3, 4].map(|column| samples[6 * r + column]);
    (1..5).map(row).collect()
}

#[test]
fn blocks_are_predicted_from_edges() -> Result<(), Error> {
    let mut samples = [7; 36];
    let left = [28, 29, 30, 31];
    predict_intra_8(
        &mut samples,
        PLACE,
        &block(PredictionMode::Dc),
        &left,
        0,
        &[],
    )?;
    assert_eq!(rows(&samples), [[30; 4]; 4]);
    assert_eq!(
        (samples[..7].iter().max(), samples[11], samples[30]),
        (Some(&7), 7, 7)
    );
    // The left edge runs from the bottom up, and the edge above to the right.
    predict_intra_8(
        &mut samples,
        PLACE,
        &block(PredictionMode::H),
        &left,
        0,
        &[],
    )?;
    assert_eq!(rows(&samples), [[31; 4], [30; 4], [29; 4], [28; 4]]);
    let deep = IntraBlock {
        bit_depth: BitDepth::Ten,
        has_above: true,
        ..block(PredictionMode::Paeth)
    };
    let mut samples = [7; 36];
    // With left = corner, each sample is the one above; the first has the corner's place.
    predict_intra_16(
        &mut samples,
        PLACE,
        &deep,
        &[500; 4],
        500,
        &[600, 601, 602, 603],
    )?;
    assert_eq!(rows(&samples), [[600, 601, 602, 603]; 4]);
    Ok(())
}

#[test]
fn luma_is_added_to_chroma() -> Result<(), Error> {
    let mut ac = [-8; 16];
    ac[1] = 24;
    let mut samples = [7; 36];
    let chroma = IntraBlock {
        has_left: false,
        ..block(PredictionMode::Dc)
    };
    // 128 without edges, and 8 eighths of a difference of -8 or 24 eighths.
    predict_cfl_8(&mut samples, PLACE, &chroma, &[], &[], &ac, 8)?;
    assert_eq!(rows(&samples)[..2], [[127, 131, 127, 127], [127; 4]]);
    let mut samples = [7; 36];
    let deep = IntraBlock {
        bit_depth: BitDepth::Ten,
        ..chroma
    };
    predict_cfl_16(&mut samples, PLACE, &deep, &[], &[], &ac, 8)?;
    assert_eq!(rows(&samples)[..2], [[511, 515, 511, 511], [511; 4]]);
    assert_eq!(samples[11], 7);
    Ok(())
}

#[test]
fn a_rejection_leaves_the_samples() {
    let mut samples = [7; 36];
    let good = block(PredictionMode::Dc);
    for (block, error) in [
        (block(PredictionMode::Cfl), Error::BadMode),
        (
            IntraBlock {
                angle_step: 1,
                ..good
            },
            Error::BadAngle,
        ),
        (
            IntraBlock {
                bit_depth: BitDepth::Ten,
                ..good
            },
            Error::BadDepth,
        ),
        (
            IntraBlock {
                tx_size: TxSize::T8x8,
                ..good
            },
            Error::BadArea,
        ),
        (
            IntraBlock {
                has_above: true,
                ..good
            },
            Error::TooShort,
        ),
    ] {
        let answer = predict_intra_8(&mut samples, PLACE, &block, &[28, 29, 30, 31], 0, &[]);
        assert_eq!(answer, Err(error));
    }
    assert_eq!(samples, [7; 36]);
}

// A plane with samples around it, and a tile of it.
fn plane() -> EdgePlane {
    EdgePlane {
        stride: 96,
        x: 3,
        y: 2,
        width: 88,
        height: 80,
        tile_x: 16,
        tile_y: 8,
        tile_width: 72,
        tile_height: 72,
        ..EdgePlane::default()
    }
}

// Where the tile begins in the samples.
const FIRST: usize = (2 + 8) * 96 + 3 + 16;

// Samples of 10 bits: 3 times the column and 7 times the row of the tile.
fn deep_samples() -> Vec<u16> {
    let at = |i: usize| (3 * (i % 96) + 7 * (i / 96)) as u16;
    (0..96 * 84).map(at).collect()
}

fn samples() -> Vec<u8> {
    deep_samples().iter().map(|sample| *sample as u8).collect()
}

fn tile_of<T>(samples: &mut [T]) -> RegionMut<'_, T> {
    RegionMut::new(samples, FIRST, 96, 72, 72).expect("it lies in them")
}

// The sample of the tile at column x of row y.
fn sample(x: usize, y: usize) -> usize {
    FIRST + 96 * y + x
}

fn in_plane(mode: PredictionMode, bit_depth: BitDepth) -> EdgeBlock {
    EdgeBlock {
        mode: Some(mode),
        bit_depth,
        ..EdgeBlock::of_luma(8, 16, BlockSize::B8x8, TxSize::T8x8)
    }
}

#[test]
fn edges_are_those_of_the_plane() -> Result<(), Error> {
    let (bytes, deep) = (samples(), deep_samples());
    let mut edge = [0; EDGE_SAMPLES];
    intra_edge_8(
        &mut edge,
        &bytes,
        &plane(),
        &in_plane(PredictionMode::Paeth, BitDepth::Eight),
    )?;
    let left: Vec<u8> = (0..8).map(|i| bytes[sample(7, 23 - i)]).collect();
    assert_eq!(
        (&edge[120..128], edge[128]),
        (&left[..], bytes[sample(7, 15)])
    );
    assert_eq!(edge[129..137], bytes[sample(8, 15)..][..8]);
    let mut edge = [0; EDGE_SAMPLES];
    intra_edge_16(
        &mut edge,
        &deep,
        &plane(),
        &in_plane(PredictionMode::Paeth, BitDepth::Ten),
    )?;
    assert_eq!(
        (edge[127], edge[128], edge[129]),
        (
            deep[sample(7, 16)],
            deep[sample(7, 15)],
            deep[sample(8, 15)]
        )
    );
    let short = intra_edge_16(
        &mut edge[1..],
        &deep,
        &plane(),
        &in_plane(PredictionMode::H, BitDepth::Ten),
    );
    assert_eq!(short, Err(Error::RoomTooSmall { needed: 257 }));
    Ok(())
}

#[test]
fn blocks_are_predicted_in_their_plane() -> Result<(), Error> {
    let (bytes, deep) = (samples(), deep_samples());
    let mut one = bytes.clone();
    predict_in_plane_8(
        &mut one,
        &plane(),
        &in_plane(PredictionMode::V, BitDepth::Eight),
        false,
        &[],
        0,
    )?;
    let mut wanted = bytes.clone();
    for i in 0..64 {
        wanted[sample(8 + i % 8, 16 + i / 8)] = bytes[sample(8 + i % 8, 15)];
    }
    assert!(one == wanted);
    let mut one = deep.clone();
    predict_in_plane_16(
        &mut one,
        &plane(),
        &in_plane(PredictionMode::H, BitDepth::Ten),
        true,
        &[],
        0,
    )?;
    let mut wanted = deep.clone();
    for i in 0..64 {
        wanted[sample(8 + i % 8, 16 + i / 8)] = deep[sample(7, 16 + i / 8)];
    }
    assert!(one == wanted);
    let any = EdgeBlock {
        mode: None,
        ..in_plane(PredictionMode::H, BitDepth::Ten)
    };
    let rejected = predict_in_plane_16(&mut one, &plane(), &any, true, &[], 0);
    assert_eq!((rejected, one == wanted), (Err(Error::BadMode), true));
    Ok(())
}

#[test]
fn an_edge_is_kept_for_several_modes() -> Result<(), Error> {
    let before = samples();
    let mut edge = IntraEdge::<u8>::new();
    let (place, ac) = (
        Place {
            stride: 96,
            x: 27,
            y: 26,
        },
        [40; 64],
    );
    let mut one = before.clone();
    assert_eq!(
        edge.predict(&mut one, place, PredictionMode::V, 0, false),
        Err(Error::TooShort)
    );
    edge.prepare(
        &before,
        &plane(),
        &EdgeBlock {
            mode: None,
            ..in_plane(PredictionMode::V, BitDepth::Eight)
        },
    )?;
    for mode in [
        PredictionMode::Dc,
        PredictionMode::D113,
        PredictionMode::Smooth,
        PredictionMode::Cfl,
    ] {
        let mut two = before.clone();
        one.clone_from(&before);
        match mode {
            PredictionMode::Cfl => edge.predict_cfl(&mut one, place, &ac, -3)?,
            _ => edge.predict(&mut one, place, mode, 0, false)?,
        }
        predict_in_plane_8(
            &mut two,
            &plane(),
            &in_plane(mode, BitDepth::Eight),
            false,
            &ac,
            -3,
        )?;
        assert!(one == two && one != before, "{mode}");
    }
    edge.prepare(
        &before,
        &plane(),
        &in_plane(PredictionMode::D45, BitDepth::Eight),
    )?;
    assert_eq!(
        edge.predict(&mut one, place, PredictionMode::D67, 0, false),
        Err(Error::BadMode)
    );
    assert_eq!(
        edge.predict(&mut one, place, PredictionMode::D45, 2, false),
        Err(Error::BadAngle)
    );
    assert_eq!(
        edge.predict_cfl(&mut one, place, &ac, 1),
        Err(Error::BadMode)
    );
    Ok(())
}

// Each size with each intra mode, at four places of the tile.
fn blocks(bit_depth: BitDepth) -> Vec<EdgeBlock> {
    let places = [(0, 0), (8, 0), (0, 8), (8, 8)];
    let of = |tx_size, mode, (x, y)| EdgeBlock {
        mode: Some(mode),
        bit_depth,
        edge_filter: true,
        ..EdgeBlock::of_luma(x, y, BlockSize::B64x64, tx_size)
    };
    let modes = &PredictionMode::ALL[..=12];
    let sizes = TxSize::ALL
        .iter()
        .flat_map(|size| modes.iter().map(move |mode| (*size, *mode)));
    sizes
        .flat_map(|(size, mode)| places.map(|place| of(size, mode, place)))
        .collect()
}

macro_rules! in_tile_as_in_plane {
    ($name:ident, $sample:ident, $samples:ident, $depth:expr, $in_plane:ident, $in_tile:ident) => {
        #[test]
        fn $name() -> Result<(), Error> {
            let before: Vec<$sample> = $samples();
            let room = &mut BlockRoom::new();
            let mut kept = IntraEdge::<$sample>::new();
            for it in blocks($depth) {
                let (mut one, mut two, mut three) =
                    (before.clone(), before.clone(), before.clone());
                $in_plane(&mut one, &plane(), &it, true, &[], 0)?;
                $in_tile(&mut tile_of(&mut two), room, &plane(), &it, true, &[], 0)?;
                kept.prepare_in_tile(&tile_of(&mut three).as_region(), room, &plane(), &it)?;
                let place = Place {
                    stride: 96,
                    x: 19 + it.x,
                    y: 10 + it.y,
                };
                kept.predict(&mut three, place, it.mode.unwrap_or_default(), 0, true)?;
                assert!(one == two && one == three, "{it:?}");
            }
            let mut samples = before.clone();
            let past = EdgeBlock {
                x: 72,
                ..blocks($depth)[0]
            };
            let rejected = $in_tile(
                &mut tile_of(&mut samples),
                room,
                &plane(),
                &past,
                true,
                &[],
                0,
            );
            assert_eq!((rejected, samples == before), (Err(Error::BadArea), true));
            Ok(())
        }
    };
}

in_tile_as_in_plane!(
    bytes_in_a_tile,
    u8,
    samples,
    BitDepth::Eight,
    predict_in_plane_8,
    predict_in_tile_8
);
in_tile_as_in_plane!(
    deep_samples_in_a_tile,
    u16,
    deep_samples,
    BitDepth::Ten,
    predict_in_plane_16,
    predict_in_tile_16
);

// A block of 8x8 in 4:2:0, of which the last 4 columns and rows have no luma of their own.
fn cfl_block() -> CflBlock {
    CflBlock {
        block_size: BlockSize::B8x8,
        sampling: Sampling::Yuv420,
        w_pad: 1,
        h_pad: 1,
    }
}

// Of a chroma sample, twice the sum of its four luma samples, less the rounded mean of these numbers.
// The first 4 columns and rows have luma of their own, and the others repeat the last one.
#[test]
fn differences_of_luma_are_those_from_the_mean() -> Result<(), Error> {
    // 32 columns and rows of luma: 37 times the column, 101 times the row and three times their product, modulo 256.
    let luma: Vec<u8> = (0..1024)
        .map(|at| (at % 32, at / 32))
        .map(|(x, y)| ((x * 37 + y * 101 + x * y * 3) % 256) as u8)
        .collect();
    let mut ac = [7; 80];
    let place = Place {
        stride: 32,
        x: 16,
        y: 16,
    };
    cfl_ac_8(&mut ac, &luma, place, &cfl_block())?;
    assert_eq!(ac[..8], [62, -90, 270, 118, 118, 118, 118, 118]);
    assert_eq!(ac[8..16], [-90, -146, -202, 254, 254, 254, 254, 254]);
    assert_eq!(ac[64..], [7; 16]);
    let mut deep: Vec<u16> = luma.iter().map(|sample| u16::from(*sample)).collect();
    let mut other = [7; 80];
    cfl_ac_16(&mut other, &deep, place, &cfl_block())?;
    assert_eq!(ac, other);
    // The last sample that is read.
    deep[32 * 23 + 23] = 4096;
    assert_eq!(
        cfl_ac_16(&mut other, &deep, place, &cfl_block()),
        Err(Error::BadSample)
    );
    let large = CflBlock {
        block_size: BlockSize::B32x64,
        ..cfl_block()
    };
    assert_eq!(
        cfl_ac_8(&mut other, &luma, place, &large),
        Err(Error::BadSize)
    );
    assert_eq!(
        cfl_ac_8(&mut other[..63], &luma, place, &cfl_block()),
        Err(Error::TooShort)
    );
    assert_eq!(ac, other);
    Ok(())
}

#[test]
fn padding_follows_from_what_is_visible() {
    let luma = LumaBlock {
        block_size: BlockSize::B16x16,
        tx_size: TxSize::T8x8,
        visible_columns: 8,
        visible_rows: 8,
        ..LumaBlock::default()
    };
    assert_eq!(cfl_block_of(&luma), Ok(cfl_block()));
    let seen = LumaBlock {
        visible_columns: 9,
        ..luma
    };
    assert_eq!(
        cfl_block_of(&seen),
        Ok(CflBlock {
            w_pad: 0,
            ..cfl_block()
        })
    );
    let hidden = LumaBlock {
        visible_rows: 0,
        ..luma
    };
    assert_eq!(cfl_block_of(&hidden), Err(Error::BadPad));
    let large = LumaBlock {
        block_size: BlockSize::B64x128,
        ..luma
    };
    assert_eq!(cfl_block_of(&large), Err(Error::BadSize));
}
