//! Plans built field by field, and reconstructed.

use std::fs;
use std::path::Path;
use tilgwaren::{
    BlockSize, BuildError, Chroma, Coefficient, Field, Header, Leaf, LeafField, Motion, Partition,
    PlanBuilder, PredictionMode, Reference, Sampling, TxSize, reconstruct_plan,
};

// An 8x8 frame in 4:4:4 at depth 8.
fn header(mask: u8) -> Header {
    Header {
        width: 8,
        height: 8,
        version: 1,
        sampling: Sampling::Yuv444,
        mask,
        ..Header::default()
    }
}

// A leaf that is predicted by DC, with transforms of 4x4.
fn middle() -> Leaf {
    Leaf {
        chroma: Some(Chroma::default()),
        ..Leaf::default()
    }
}

// A leaf of the reference LAST, moved to the right.
fn moved(mv_x: i16) -> Leaf {
    let vector = Motion {
        mv_y: 0,
        mv_x,
        reference: Reference::Last,
    };
    Leaf {
        mode: PredictionMode::New,
        first: Some(vector),
        tx_size: TxSize::T64x64,
        ..middle()
    }
}

const LIFTED: Coefficient = Coefficient {
    block: 0,
    place: 0,
    value: 100,
};

#[test]
fn a_plan_is_built_and_reconstructed() -> Result<(), BuildError> {
    let mut builder = PlanBuilder::new(&header(0))?;
    assert_eq!(
        builder.leaf(&middle(), &[], &[], &[]),
        Err(BuildError::NotNow)
    );
    assert_eq!(
        builder.mark(Partition::Horizontal4),
        Err(BuildError::NotAdmitted)
    );
    builder.mark(Partition::None)?;
    assert_eq!(builder.mark(Partition::None), Err(BuildError::NotNow));
    assert_eq!(builder.clone().finish(), Err(BuildError::NotNow));
    let grey = Leaf {
        chroma: None,
        ..middle()
    };
    let field = LeafField::HasChroma;
    assert_eq!(
        builder.leaf(&grey, &[], &[], &[]),
        Err(BuildError::BadField { field })
    );
    builder.leaf(&middle(), &[LIFTED], &[], &[])?;
    let plan = builder.finish()?;
    assert_eq!(plan.len(), 41);
    let mut planes = [0; 192];
    assert_eq!(reconstruct_plan(&plan, &mut planes), Ok(192));
    assert!(planes[..64].iter().all(|sample| *sample == 131));
    assert!(planes[64..].iter().all(|sample| *sample == 128));
    Ok(())
}

// An 8x8 frame cut down to four leaves of 4x4, of which the first has these coefficients in Y.
fn four_leaves(coefficients: &[Coefficient]) -> Result<Vec<u8>, BuildError> {
    let mut builder = PlanBuilder::new(&header(0))?;
    let sizes = [
        BlockSize::B64x64,
        BlockSize::B32x32,
        BlockSize::B16x16,
        BlockSize::B8x8,
    ];
    for size in sizes {
        assert_eq!(builder.next_field(), Field::Mark { x: 0, y: 0, size });
        builder.mark(Partition::Split)?;
    }
    let before = builder.clone();
    for (x, y) in [(0, 0), (4, 0), (0, 4), (4, 4)] {
        let size = BlockSize::B4x4;
        assert_eq!(builder.next_field(), Field::Leaf { x, y, size });
        let given = if (x, y) == (0, 0) { coefficients } else { &[] };
        builder.leaf(&middle(), given, &[], &[])?;
    }
    assert_eq!(builder.next_field(), Field::End);
    assert!(builder.written().starts_with(before.written()));
    // A clone goes back to before the leaves.
    assert_eq!(before.finish(), Err(BuildError::NotNow));
    builder.finish()
}

#[test]
fn the_worked_plan_is_built() -> Result<(), BuildError> {
    let folder = Path::new(env!("CARGO_MANIFEST_DIR")).join("../../crates/av1_vectors");
    let worked = fs::read(folder.join("stdin")).expect("the file is there");
    assert_eq!(four_leaves(&[LIFTED])?, worked);
    assert_eq!(four_leaves(&[])?.len(), 76);
    Ok(())
}

#[test]
fn planes_and_a_moved_leaf_are_spelled() -> Result<(), BuildError> {
    let ramp: Vec<u16> = (0..64).map(|place| 10 * (place % 8)).collect();
    let flat = [128; 64];
    let mut builder = PlanBuilder::new(&header(1))?;
    assert_eq!(builder.next_field(), Field::Reference { slot: 0 });
    assert_eq!(builder.mark(Partition::None), Err(BuildError::NotNow));
    let past = builder.reference(&[256; 64], &flat, &flat);
    assert_eq!(past, Err(BuildError::NotAdmitted));
    builder.reference(&ramp, &flat, &flat)?;
    builder.mark(Partition::None)?;
    builder.leaf(&moved(8), &[], &[], &[])?;
    let mut plan = b"RPL1\x08\0\x08\0\x08\x02".to_vec();
    plan.resize(19, 0);
    plan.push(1);
    plan.extend(
        ramp.iter()
            .chain(&flat)
            .chain(&flat)
            .map(|sample| *sample as u8),
    );
    plan.extend([0, 19, 1, 0, 0, 8, 0, 4, 0, 0, 0, 0, 0, 0, 0, 0]);
    assert_eq!(builder.finish()?, plan);
    Ok(())
}

#[test]
fn a_frame_of_any_dimensions_shows_them() -> Result<(), BuildError> {
    // 9 columns of 8 rows, in luma 0, 10 .. 80 each.
    let ramp: Vec<u16> = (0..72).map(|place| 10 * (place % 9)).collect();
    let odd = Header {
        width: 9,
        version: 3,
        ..header(1)
    };
    let earlier = PlanBuilder::new(&Header { version: 2, ..odd });
    assert_eq!(earlier.err(), Some(BuildError::NotAdmitted));
    let mut builder = PlanBuilder::new(&odd)?;
    builder.reference(&ramp, &[128; 72], &[128; 72])?;
    builder.mark(Partition::None)?;
    builder.leaf(&moved(32), &[], &[], &[])?;
    let mut planes = [0; 216];
    assert_eq!(reconstruct_plan(&builder.finish()?, &mut planes), Ok(216));
    let mut rows = planes[..72].chunks(9);
    assert!(rows.all(|row| row == [40, 50, 60, 70, 80, 80, 80, 80, 80]));
    Ok(())
}

// Two superblocks in each of two rows, whose plan is longer than the builder's first buffer.
#[test]
fn a_plan_grows() -> Result<(), BuildError> {
    let wide = Header {
        width: 128,
        height: 128,
        ..header(0)
    };
    let mut builder = PlanBuilder::new(&wide)?;
    let many: Vec<Coefficient> = (0..1000)
        .map(|place| Coefficient { place, ..LIFTED })
        .collect();
    let leaf = Leaf {
        tx_size: TxSize::T64x64,
        ..middle()
    };
    for (x, y) in [(0, 0), (64, 0), (0, 64), (64, 64)] {
        let size = BlockSize::B64x64;
        assert_eq!(builder.next_field(), Field::Mark { x, y, size });
        builder.mark(Partition::None)?;
        builder.leaf(&leaf, &many, &[], &[])?;
    }
    assert_eq!(builder.next_field(), Field::End);
    let plan = builder.finish()?;
    assert!(plan.len() > 4 * 7 * 1000);
    assert_eq!(
        reconstruct_plan(&plan, &mut vec![0; 3 * 128 * 128]),
        Ok(3 * 128 * 128)
    );
    Ok(())
}
