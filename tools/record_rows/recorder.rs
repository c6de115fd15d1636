//! Writes the rows of calls on blocks to standard output, as README.md here says, each with the answer of rav1e's own function. Which calls they
//! are the seed decides that it is given, 1 where it is given none. `record_rows.py` and `draw_calls.py` build and run it.
#![allow(dead_code, unused_imports, unused_unsafe, non_upper_case_globals, unexpected_cfgs, clippy::all)]

include!("numbers.rs");
include!("stubs.rs");
include!("answers.rs");
mod availability_rows;
mod block_rows;
mod calls;
mod edge_rows;
mod intra_rows;
mod luma_rows;
mod mc;
mod motion_rows;
mod partition;
mod predict;
mod recon_intra;
mod transform;
mod transform_rows;

fn main() {
    let seed = std::env::args().nth(1).map_or(1, |word| word.parse().expect("a seed is a number"));
    let pick = &mut calls::Numbers::new(seed);
    transform_rows::networks(pick);
    transform_rows::transforms(pick);
    motion_rows::puts(pick);
    motion_rows::prepares(pick);
    motion_rows::averages(pick);
    intra_rows::intra_modes(pick);
    intra_rows::from_luma(pick);
    edge_rows::edges(pick);
    luma_rows::luma(pick);
    availability_rows::availability(pick);
    transform_rows::every_range(pick);
    transform_rows::ends_and_few(pick);
    motion_rows::every_width(pick);
    motion_rows::every_filter(pick);
    intra_rows::every_mode(pick);
    motion_rows::refused(pick);
    motion_rows::refused_averages(pick);
    intra_rows::refused(pick);
    edge_rows::refused(pick);
    luma_rows::refused(pick);
}
