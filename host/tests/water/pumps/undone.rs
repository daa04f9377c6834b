//! A refused step is undone: what its pumps did first is gone, the run keeps the last accepted state, and the totals are over the accepted
//! steps alone.

use super::{one_cell, ran, stepped, CARD, TOP};
use crate::wild::Wild;
use water::raw::{Card, Tally};

/// An inlet that fits twice.
#[test]
fn an_inlet_that_meets_the_top() {
    let mut site = one_cell(TOP - 500_000);
    site.card.steps = 100;
    let (tally, state) = ran(&site, &[0, 200_000]);
    assert_eq!(tally, Tally { steps: 2, reason: 5, top: TOP - 100_000, added: 400_000, taken: 0 });
    assert_eq!(state[0], TOP - 100_000);
    // a pump in front of the inlet, which fits twice then, and one behind it, where it fits once: of the refused step neither counts
    site.state[0] = TOP - 430_000;
    for (pumps, steps) in [([0, -50_000, 0, 250_000], 2), ([0, 250_000, 0, -50_000], 1)] {
        let (tally, state) = ran(&site, &pumps);
        assert_eq!((tally.steps, tally.reason), (steps, 5));
        assert_eq!((tally.added, tally.taken), (250_000 * u64::from(steps), 50_000 * u64::from(steps)));
        assert_eq!(state[0], TOP - 430_000 + 200_000 * steps as i32);
    }
}

/// On two cells: the pump on the first has had its turn when the inlet on the second is refused.
#[test]
fn a_pump_that_had_its_turn() {
    let mut site = Wild::empty(Card { dt: 1, steps: 10, dx: 20_000_000, ..CARD });
    site.ground[0] = TOP;
    site.state[..2].copy_from_slice(&[0, TOP - 3]);
    site.state[0] = 1_000;
    let first = stepped(&site, &[0, -10, 1, 2]);
    assert_eq!((first.0, &first.1[..2]), (0, &[990, TOP - 1][..]));
    let (tally, state) = ran(&site, &[0, -10, 1, 2]);
    assert_eq!((tally.steps, tally.reason, tally.added, tally.taken), (1, 5, 2, 10));
    assert_eq!(state, first.1);
}

/// Stopped by each of 4, 5 and 7 of the step from the pumped state, on the way.
#[test]
fn each_reason_of_a_pumped_step_on_the_way() {
    let run = |card: Card, ground: [i32; 2], heights: [i32; 2], pumps: &[i32]| {
        let mut site = Wild::empty(Card { steps: 100, ..card });
        site.ground.copy_from_slice(&ground);
        site.state[..2].copy_from_slice(&heights);
        let (tally, state) = ran(&site, pumps);
        // step by step, to the state from which the next step is refused
        let mut last = site.clone();
        for _ in 0..tally.steps {
            last.state = stepped(&last, pumps).1;
        }
        assert_eq!(state, last.state, "the last accepted state, as it was before its pumps");
        assert_eq!(stepped(&last, pumps).0, tally.reason);
        tally
    };
    // fed at the upper end and emptied at the lower one, the water down a step of 4 m gets faster until it breaks the limit
    let four = run(CARD, [4_000_000, 0], [1_000_000, 1_000_000], &[0, 10_000, 1, -10_000]);
    // a cell that is nearly full takes in more than it has room for, though a pump works on it
    let five = run(CARD, [0, -30_000_000], [20_000_000, 49_500_000], &[1, -100]);
    // a pump lowers its cell until the slope is too steep; wide cells keep the step limit out of the way
    let wide = Card { dt: 500, dx: 20_000_000, ..CARD };
    let seven = run(wide, [20_000_000, -20_000_000], [1_000_000, 1_000_000], &[1, -1_000]);
    assert_eq!((four.reason, five.reason, seven.reason), (4, 5, 7), "{four:?}, {five:?}, {seven:?}");
    assert!(four.steps > 0 && five.steps > 0 && seven.steps > 0, "on the way: {four:?}, {five:?}, {seven:?}");
    assert_eq!(four.added, 10_000 * u64::from(four.steps));
}
