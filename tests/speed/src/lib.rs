//! How long the proved machine takes for a journal, beside an engine in plain Rust that nothing was proved of.

pub mod cases;
pub mod clock;
pub mod engine;
pub mod machines;
pub mod parts;
pub mod same;
