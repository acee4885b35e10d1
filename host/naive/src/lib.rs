//! The log software a second time, written from the definitions alone and kept as plain as they
//! are.
//!
//! Relations are sets of pairs, closures repeat their rules until nothing new comes, a stack is a
//! vector. Nothing here is shared with the library that it is compared with. Each of the nine calls
//! is one function that takes what the exported call is lent and gives the answer together with all
//! lent memory as it has to be afterwards.

pub mod answer;
pub mod log;
pub mod nesting;
pub mod reader;
pub mod runs;
pub mod shortest;
pub mod table;
pub mod trim;

pub use answer::Answer;

/// How many numbers of scratch the trimmer and the search for a shortest log use.
pub const SCRATCH: usize = 16_384;

/// What a call that uses scratch leaves in it: zeros, and past them what was there.
fn cleared_scratch(scratch: &[u16]) -> Vec<u16> {
    let mut after = scratch.to_vec();
    after[..SCRATCH].fill(0);
    after
}

/// What a call that writes `result` to the front of `out` leaves there.
fn written_over(out: &[u8], result: &[u8]) -> Vec<u8> {
    let mut after = out.to_vec();
    after[..result.len()].copy_from_slice(result);
    after
}
