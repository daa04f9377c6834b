//! The step on random sites and on nonsense: both engines get each of them.

use crate::given::Given;
use crate::lent::room;
use crate::rng::Rng;
use crate::trials::trials;
use crate::{library, model, wild};
use water::raw::Card;

#[test]
fn random_sites() {
    let mut given = Given::default();
    trials("step", 24_000, |rng| {
        let site = wild::any(rng);
        let mut next = room(rng, site.state.len());
        given.count(library::step(rng, site.card, &site.ground, &site.state, &mut next));
    });
    given.assert_often("step", &[0, 1, 2, 3, 4, 5, 7], 40);
}

/// Cards, lengths and words without any sense; some are good by chance.
#[test]
fn nonsense() {
    let mut given = Given::default();
    trials("step of nonsense", 8_000, |rng| {
        let odd = |rng: &mut Rng, low: u32, high: u32| match rng.below(24) {
            0 => rng.next() as u32,
            1 => rng.pick(&[0, 1, 128, 129, 100_000, 1_000, u32::MAX]),
            _ => rng.between(low.into(), high.into()) as u32,
        };
        let card = Card {
            columns: odd(rng, 1, 2),
            rows: odd(rng, 1, 2),
            dx: odd(rng, 99_999, 20_000_001),
            dy: odd(rng, 99_999, 20_000_001),
            dt: odd(rng, 0, 1_001),
            steps: odd(rng, 0, 10_001),
        };
        let words = |rng: &mut Rng, right: usize| -> Vec<i32> {
            let length = if rng.percent(80) { right } else { rng.pick(&[0, 1, 2, 4, 5, 9, 16, 17]) };
            let (small, nought) = (rng.between(32, 63) as u32, rng.pick(&[0, 50, 100]));
            (0..length).map(|_| if rng.percent(nought) { 0 } else { (rng.next() as i64 >> small) as i32 }).collect()
        };
        // lists of what the card asks for, if it asks for little
        let sizes = Card { columns: card.columns.min(2), rows: card.rows.min(2), ..card };
        let (cells, length) = (model::cells(&sizes), model::state_length(&sizes));
        let (ground, state, mut next) = (words(rng, cells), words(rng, length), words(rng, length));
        given.count(library::step(rng, card, &ground, &state, &mut next));
    });
    given.assert_some("step of nonsense", &[0, 1, 2, 3], 40);
}
