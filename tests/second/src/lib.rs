//! A second implementation of the paper, on plain vectors of trits: the simplest code that can be right. It is written
//! from the paper and from FIPS 202 alone and shares nothing with the proved code; the tests in `tests/` hold it to the
//! paper's worked examples, to published hashes and to brute force, and `differ` holds the proved code to it.

pub mod algebra;
pub mod draw;
pub mod held;
pub mod key;
pub mod lines;
pub mod packing;
pub mod planes;
pub mod shake;
