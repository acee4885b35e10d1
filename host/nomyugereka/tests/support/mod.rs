//! What the tests share. Each of them uses a part of it.
#![allow(dead_code)]

pub mod ours;

/// The exported functions as C sees them, for what the safe calls cannot say: null pointers, and
/// what is in the two numbers of a balance that was refused.
#[path = "../../src/exported.rs"]
pub mod exported;

use nomyugereka as _;
use std::fmt;

/// The seed of all random cases, unless the environment gives another.
const SEED: u64 = 20_261_116;

/// The environment variable that gives another seed.
const SEED_VARIABLE: &str = "NOMYUGEREKA_SEED";

/// The seed of this run.
pub fn seed() -> u64 {
    match std::env::var(SEED_VARIABLE) {
        Ok(text) => text.parse().expect("the seed is a number"),
        Err(_) => SEED,
    }
}

/// The table of the repository's worked example.
pub fn worked_table() -> Vec<u8> {
    let path = concat!(env!("CARGO_MANIFEST_DIR"), "/../../examples/worked.table");
    std::fs::read(path).expect("the worked table is in the repository")
}

/// Bytes that are shown as hexadecimal digits.
pub struct Hex<'a>(pub &'a [u8]);

impl fmt::Debug for Hex<'_> {
    fn fmt(&self, to: &mut fmt::Formatter<'_>) -> fmt::Result {
        self.0.iter().try_for_each(|byte| write!(to, "{byte:02x}"))
    }
}
