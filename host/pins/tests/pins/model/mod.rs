//! Document 02's [13] in plain Rust, twice, and without a thought of speed.

mod sets;
mod words;

pub use sets::Sets;
pub use words::{add, faults, list, pin, remove, Fault};
