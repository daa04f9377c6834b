//! The balance on long runs: the end sum plus what was taken is the start sum plus what was added. Of every other run that tests make it is
//! asserted where they are made (library.rs).

use super::{one_cell, ran};
use crate::library;
use crate::rng::Rng;
use crate::trials::trials;
use crate::wild::Wild;
use std::ops::ControlFlow;
use water::{Card, Pump, Site};

/// Gentle pumps all over a site, among them an inlet, on the same cell one that takes as much away, and one that asks for 10 cm a step, more
/// than it ever finds.
fn pumps(rng: &mut Rng, card: Card, count: usize, most: i64) -> Vec<Pump> {
    let pump = |rng: &mut Rng| Pump {
        column: rng.below(card.columns.into()) as u32,
        row: rng.below(card.rows.into()) as u32,
        amount: rng.between(-most, most) as i32,
    };
    let mut pumps: Vec<Pump> = (0..count).map(|_| pump(rng)).collect();
    let inlet = Pump { amount: most as i32, ..pumps[count - 1] };
    pumps[count - 1] = inlet;
    pumps[0] = Pump { amount: -inlet.amount, ..inlet };
    pumps[1].amount = -100_000;
    pumps
}

/// Runs for all its steps, with a look at the balance after each tenth of them.
fn balances(start: &Wild, pumps: &[Pump]) {
    let mut site = Site::new(start.card, start.ground.clone(), start.state.clone()).unwrap();
    let (card, first) = (start.card, site.volume());
    let (mut looks, mut before) = (0, (0, 0));
    let tally = site.run_in_slices_with(pumps, card.steps / 10, |site, so_far| {
        assert_eq!(site.volume() + card.volume(so_far.taken), first + card.volume(so_far.added));
        assert!(so_far.added > before.0 && so_far.taken >= before.1, "inlets go on, and nothing is taken back");
        before = (so_far.added, so_far.taken);
        looks += 1;
        ControlFlow::Continue(())
    });
    assert_eq!((tally.steps, tally.reason, looks), (card.steps, None, 10));
    let inlets: u64 = pumps.iter().map(|pump| pump.amount.max(0) as u64).sum();
    assert_eq!(tally.added, inlets * u64::from(card.steps), "an inlet that fits adds its amount in each step");
    let asked: u64 = pumps.iter().map(|pump| (-pump.amount).max(0) as u64).sum();
    assert!(0 < tally.taken && tally.taken < asked * u64::from(card.steps), "a pump ran dry");
}

/// 128×128, 64 pumps: shallow water over uneven ground.
#[test]
fn the_largest_site() {
    trials("balance, largest", 2, |rng| {
        let card = Card { columns: 128, rows: 128, dx: 2_000_000, dy: 3_000_000, dt: 40, steps: 200 };
        let mut site = Wild::empty(card);
        for k in 0..site.ground.len() {
            site.ground[k] = rng.between(0, 20_000) as i32;
            site.state[k] = rng.between(0, 30_000) as i32;
        }
        balances(&site, &pumps(rng, card, 64, 3_000));
    });
}

/// 10,000 steps, as many as there may be.
#[test]
fn ten_thousand_steps() {
    trials("balance, ten thousand", 2, |rng| {
        let card = Card { columns: 12, rows: 9, dx: 2_000_000, dy: 1_300_000, dt: 50, steps: 10_000 };
        let mut site = Wild::empty(card);
        let cells = site.ground.len();
        site.state[..cells].fill(10_000);
        balances(&site, &pumps(rng, card, 8, 400));
    });
}

/// A long run beside the model, word for word.
#[test]
fn a_long_run() {
    let card = Card { columns: 12, rows: 9, dx: 1_000_000, dy: 1_300_000, dt: 20, steps: 500 };
    let mut site = Wild::empty(card);
    for (k, height) in site.state[..108].iter_mut().enumerate() {
        *height = if k % 12 < 4 { 300_000 } else { 1_000 * k as i32 };
    }
    let pumps = [0, 4_000, 107, -9_000, 50, -20_000, 50, 1_000, 3, 0];
    let mut scratch = vec![3; 108 + 117 + 120];
    let tally = library::run_with(&mut Rng::new(1), card, &site.ground, &mut site.state, &pumps, &mut scratch);
    assert_eq!((tally.steps, tally.reason, tally.added), (500, 0, 2_500_000));
    assert!(0 < tally.taken && tally.taken < 500 * 29_000);
}

/// A run that stops on its way balances as well, and so does one with no step wanted.
#[test]
fn a_run_that_stops() {
    let mut site = one_cell(49_000_000);
    for (steps, done, reason) in [(0, 0, 0), (100, 100, 0), (10_000, 111, 5)] {
        site.card.steps = steps;
        let (tally, state) = ran(&site, &[0, 10_000, 0, -1_000]);
        assert_eq!((tally.steps, tally.reason), (done, reason));
        assert_eq!((tally.added, tally.taken), (10_000 * u64::from(done), 1_000 * u64::from(done)));
        assert_eq!(state[0], 49_000_000 + 9_000 * done as i32);
    }
}
