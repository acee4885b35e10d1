//! What tests are run on: tables, logs, reader states and lent memory, random ones and special
//! ones. Everything random comes from one seed, so a test that fails can be run again.

pub mod lent;
pub mod logs;
pub mod random;
pub mod special;
pub mod states;
pub mod tables;

pub use lent::Lent;
pub use random::Random;
