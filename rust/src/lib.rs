//! What the tests and the benchmarks of the proved library share.

pub mod generate;
pub mod harness;
pub mod independent;
