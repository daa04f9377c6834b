//! Top is the greatest height in the starting state and each accepted one: what pumps make of a state before its step does not count.

use super::{one_cell, ran, CARD};
use crate::wild::Wild;
use water::raw::{Card, Tally};

/// An inlet raises the cell to 3 m before each step, and half of it leaves in the step.
#[test]
fn pumped_heights_do_not_count() {
    let mut site = Wild::empty(CARD);
    site.state[0] = 2_000_000;
    site.state[3] = 5_000_000;
    let (tally, state) = ran(&site, &[0, 1_000_000]);
    assert_eq!(state[..2], [1_500_000, 1_500_000]);
    assert_eq!(tally, Tally { steps: 1, reason: 0, top: 2_000_000, added: 1_000_000, taken: 0 });
}

/// Nor does the height between two pumps.
#[test]
fn heights_between_two_pumps_do_not_count() {
    let (tally, _) = ran(&one_cell(7), &[0, 1_000_000, 0, -1_000_000]);
    assert_eq!(tally, Tally { steps: 1, reason: 0, top: 7, added: 1_000_000, taken: 1_000_000 });
}

/// The starting state counts, though a pump lowers it at once, and with no step wanted too; so does what an inlet leaves after a step.
#[test]
fn the_start_and_each_accepted_state_count() {
    let top = |steps: u32, amount: i32| {
        let mut site = one_cell(500_000);
        site.card = Card { steps, ..site.card };
        ran(&site, &[0, amount]).0.top
    };
    assert_eq!(top(3, -100_000), 500_000);
    assert_eq!(top(0, 100_000), 500_000);
    assert_eq!(top(1, 100_000), 600_000);
    assert_eq!(top(3, 100_000), 800_000);
}
