//! A second writing of the bench, from its pages alone: images, labels, conversion, the machine,
//! memories and the bench.

pub mod bench;
pub mod cases;
pub mod conversion;
pub mod generator;
pub mod image;
pub mod labels;
pub mod machine;
pub mod make;
pub mod making;
pub mod memory;
pub mod most;
pub mod program;
pub mod refusal;
pub mod text;
