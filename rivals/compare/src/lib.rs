//! The proved crates, by way of the static library `exports`, beside the rival.

mod heap;
pub mod images;
pub mod ours;
pub mod samples;
pub mod texts;
