//! What the comparison and the benchmark share: partitions, slot headers and cards made byte by byte, random numbers
//! that a seed fixes, and the plain implementations' answers as the C interface gives them.

pub mod answers;
pub mod card;
pub mod flash;
mod prng;
pub mod slots;

pub use prng::Prng;
