//! A second program, in floating point, as a sanity check: the same scheme on doubles without any of document 01's roundings.
//!
//! It is no authority. It would show a formula that both the library and the model took from the document wrongly: a term with the
//! wrong sign, a flow from the wrong face, a wrong scale. `cargo test --release floats -- --nocapture` prints what it measures.

mod dam_break;
mod pumps;
mod scheme;
mod staff;
mod steps;
mod still;
mod textbook;
