//! Document 002's pressure and ground kept apart, with every factor that the paper has and none doubled: what the textbook engine's whole
//! numbers come from. steps.rs holds each step of the doubles in this form to the other one.

use super::scheme::{step_by, Cell, Water, GRAVITY};
use water::raw::Card;

/// (7c)
fn pressure(cell: &Cell) -> f64 {
    GRAVITY * cell.height * cell.height / 2.0
}

/// (11)'s difference of pressures, and the ground's times gravity and the mean height (17), over the height of the face's cell (14), which
/// between two equal cells is the mean too.
fn pull_of_terms(k: &Cell, l: &Cell) -> f64 {
    let mean = (k.height + l.height) / 2.0;
    (pressure(l) - pressure(k) + GRAVITY * mean * (l.ground - k.ground)) / mean
}

/// One step.
pub fn step(card: &Card, ground: &[i32], water: &Water) -> Water {
    step_by(pull_of_terms, card, ground, water)
}
