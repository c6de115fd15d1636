//! Reads the grid of tiles in FILE, and writes the planes of its frame to standard output. The
//! argument after FILE says how many bytes they have at most, else 16 MiB.

use std::error::Error;
use std::io::Write;
use std::{env, fs, io};

fn main() -> Result<(), Box<dyn Error>> {
    let mut words = env::args().skip(1);
    let name = words.next().ok_or("usage: tiles FILE [BYTES]")?;
    let most = words.next().map_or(Ok(1 << 24), |word| word.parse())?;
    let mut planes = vec![0; most];
    let written = tilgwaren::reconstruct_tiles(&fs::read(name)?, &mut planes)?;
    io::stdout().write_all(&planes[..written])?;
    Ok(())
}
