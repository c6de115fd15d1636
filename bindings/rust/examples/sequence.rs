//! Reads the sequence of frames in FILE, and writes the planes of its shown frames to standard
//! output, one frame after the other.

use std::io::Write;
use std::{env, fs, io};
use tilgwaren::{Error, reconstruct_sequence};

// The planes. The first call only asks how long they are.
fn planes_of(sequence: &[u8]) -> Result<Vec<u8>, Error> {
    let mut planes = Vec::new();
    if let Err(Error::RoomTooSmall { needed }) = reconstruct_sequence(sequence, &mut planes) {
        planes.resize(needed, 0);
    }
    reconstruct_sequence(sequence, &mut planes)?;
    Ok(planes)
}

fn main() -> Result<(), Box<dyn std::error::Error>> {
    let name = env::args_os().nth(1).ok_or("usage: sequence FILE")?;
    io::stdout().write_all(&planes_of(&fs::read(name)?)?)?;
    Ok(())
}
