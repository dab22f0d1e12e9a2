//! The partition calls of `independent` with the same answers, written for speed on one core: no table,
//! no allocation, nothing but safe stable Rust. The benchmark takes it for the best that can be had.
//!
//! Every call tests its own input. A refused call changes no byte.

mod checksum;
pub mod flash;

pub use checksum::checksum;
