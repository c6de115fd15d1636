//! Reads the plan in FILE, and writes its planes to standard output.

use std::error::Error;
use std::io::Write;
use std::{env, fs, io};

fn main() -> Result<(), Box<dyn Error>> {
    let name = env::args_os()
        .nth(1)
        .ok_or("usage: reconstruct_plan FILE")?;
    let plan = fs::read(name)?;
    let mut planes = vec![0; tilgwaren::planes_len(&plan)?];
    tilgwaren::reconstruct_plan(&plan, &mut planes)?;
    io::stdout().write_all(&planes)?;
    Ok(())
}
