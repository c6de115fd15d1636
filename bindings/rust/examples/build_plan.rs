//! Builds a plan field by field, and reconstructs it: an 8x8 frame, darker from left to right.

use std::error::Error;
use tilgwaren::{
    BlockSize, Chroma, Coefficient, Field, Header, Leaf, Partition, PlanBuilder, Sampling, TxSize,
};

fn main() -> Result<(), Box<dyn Error>> {
    let header = Header {
        width: 8,
        height: 8,
        sampling: Sampling::Yuv444,
        ..Header::default()
    };
    let mut builder = PlanBuilder::new(&header)?;
    loop {
        match builder.next_field() {
            Field::Mark {
                size: BlockSize::B8x8,
                ..
            } => builder.mark(Partition::None)?,
            Field::Mark { .. } => builder.mark(Partition::Split)?,
            Field::Leaf { size, .. } => {
                assert_eq!(size, BlockSize::B8x8);
                let leaf = Leaf {
                    tx_size: TxSize::T8x8,
                    chroma: Some(Chroma::default()),
                    ..Leaf::default()
                };
                // The first coefficient of the second column: half a cosine along each row.
                let slope = Coefficient {
                    place: 8,
                    value: 400,
                    ..Coefficient::default()
                };
                builder.leaf(&leaf, &[slope], &[], &[])?;
            }
            _ => break,
        }
    }
    let plan = builder.finish()?;
    let mut planes = vec![0; tilgwaren::planes_len(&plan)?];
    tilgwaren::reconstruct_plan(&plan, &mut planes)?;
    println!(
        "a plan of {} bytes; first row of Y: {:?}",
        plan.len(),
        &planes[..8]
    );
    Ok(())
}
