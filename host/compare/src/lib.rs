//! What the comparison with the Rust and the benchmark share: a call, the library's answer to it and
//! the one that must come, and numbers that look random.

pub mod case;
pub mod expected;
pub mod ours;
pub mod random;
