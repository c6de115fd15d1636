//! Compares the planes of another encoder with those that its plan defines: PLAN is the plan, and
//! PLANES the encoder's planes before loop filters, in the layout of `reconstruct_plan`.

use std::error::Error;
use std::{env, fs};
use tilgwaren::{Difference, PlaneBytes, trace_differences};

// The planes of a file, row by row without padding. The plan's header says how large they are.
fn in_file<'a>(plan: &[u8], planes: &'a [u8]) -> [PlaneBytes<'a>; 3] {
    let field = |at| plan.get(at).copied().map_or(0, usize::from);
    let (width, height) = (field(4) + 256 * field(5), field(6) + 256 * field(7));
    let (sample, sampling) = (if field(8) == 8 { 1 } else { 2 }, field(9));
    let mut rest = planes;
    [0, usize::from(sampling < 2), usize::from(sampling < 2)].map(|halved| {
        let stride = sample * width.div_ceil(1 + halved);
        let rows = if halved == 1 && sampling == 0 {
            height.div_ceil(2)
        } else {
            height
        };
        let (bytes, others) = rest.split_at((stride * rows).min(rest.len()));
        rest = others;
        PlaneBytes { bytes, stride }
    })
}

fn main() -> Result<(), Box<dyn Error>> {
    let mut names = env::args_os().skip(1);
    let mut read = || {
        fs::read(names.next().ok_or("usage: trace PLAN PLANES")?).map_err(Box::<dyn Error>::from)
    };
    let (plan, planes) = (read()?, read()?);
    let mut first = [Difference::default(); 10];
    let found = trace_differences(&plan, in_file(&plan, &planes), &mut first)?;
    for it in first.iter().take(found) {
        println!(
            "leaf {}: plane {}, row {}, column {}: {} in place of {}",
            it.leaf, it.plane, it.y, it.x, it.given, it.defined
        );
    }
    println!("{found} differ");
    Ok(())
}
