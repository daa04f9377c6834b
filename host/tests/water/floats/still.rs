//! Document 002's lake at rest (its Lemma 2): a level surface over any ground, all wet, stays as it is, to the last bit in both programs;
//! and so does still water with shores, as document 02's [2] has it.

use super::scheme::{step, Water};
use crate::ponds::assert_lies_still;
use crate::rng::Rng;
use crate::wild::{self, Wild};
use water::Card;

/// The library after as many steps as the card wants, and the doubles after 100.
fn assert_both_lie_still(what: &str, start: &Wild) {
    assert_lies_still(start);
    let rest = Water::of(&start.card, &start.state);
    let water = (0..100).fold(rest.clone(), |water, _| step(&start.card, &start.ground, &water));
    let off = water.all().iter().zip(&rest.all()).fold(0.0, |most: f64, (a, b)| most.max((a - b).abs()));
    println!("floats, {what}: as it was after {} steps, the doubles off by {off} after 100", start.card.steps);
    assert_eq!(off, 0.0);
}

#[test]
fn a_lake_at_rest() {
    let rng = &mut Rng::new(2);
    let card = Card { columns: 24, rows: 18, dx: 700_000, dy: 1_300_000, dt: 200, steps: 500 };
    let mut lake = Wild::empty(card);
    for k in 0..lake.ground.len() {
        lake.ground[k] = rng.between(-20_000_000, 9_999_999) as i32;
        lake.state[k] = 10_000_000 - lake.ground[k];
    }
    assert_both_lie_still("lake at rest", &lake);
}

#[test]
fn a_pond_with_a_shore() {
    assert_both_lie_still("pond with a shore", &wild::with_shore());
}
