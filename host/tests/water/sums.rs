//! No water is made and none is lost: sums of all heights over long runs on the largest site, through the wrapper. That every step and
//! every run of all other tests keeps the sum is asserted where they are made (library.rs).

use crate::rng::Rng;
use crate::trials::trials;
use crate::wild::Wild;
use std::ops::ControlFlow;
use water::{Card, Site};

/// A lake of 128×128 cells, so deep, with a swell wherever `swell` says so, and velocities on the inner faces there.
fn lake(rng: &mut Rng, card: Card, depth: i64, swell: impl Fn(u32, u32) -> bool) -> Wild {
    let mut site = Wild::empty(card);
    for j in 0..128 {
        for i in 0..128 {
            let cell = (j * 128 + i) as usize;
            let rough = swell(i, j);
            site.state[cell] = (depth + if rough { rng.between(-100_000, 100_000) } else { 0 }) as i32;
            let (west, south) = (site.east(i, j), site.north(i, j));
            if rough && i > 0 {
                site.state[west] = rng.between(-100_000, 100_000) as i32;
            }
            if rough && j > 0 {
                site.state[south] = rng.between(-100_000, 100_000) as i32;
            }
        }
    }
    site
}

/// Runs for all its steps, with a look at the volume after each quarter of them.
fn keeps_its_water(start: &Wild) {
    let mut site = Site::new(start.card, start.ground.clone(), start.state.clone()).unwrap();
    let volume = site.volume();
    let tally = site.run_in_slices(start.card.steps / 4, |site, _| {
        assert_eq!(site.volume(), volume, "no water is made and none is lost");
        ControlFlow::Continue(())
    });
    assert_eq!((tally.steps, tally.reason), (start.card.steps, None));
    let moved = site.heights().iter().zip(&start.state).filter(|(now, then)| now != then).count();
    assert!(moved > 500, "only {moved} heights changed");
}

/// 10,000 steps on 128×128: wide cells, short steps and shallow water, so that the swell stays near where it is and most rows lie still.
#[test]
fn ten_thousand_steps() {
    trials("ten thousand steps", 1, |rng| {
        let card = Card {
            columns: 128,
            rows: 128,
            dx: 20_000_000,
            dy: rng.between(19_000_000, 20_000_000) as u32,
            dt: 1,
            steps: 10_000,
        };
        let (column, row) = (rng.below(80) as u32, rng.below(104) as u32);
        let site = lake(rng, card, 200_000, |i, j| (column..column + 48).contains(&i) && (row..row + 24).contains(&j));
        keeps_its_water(&site);
    });
}

/// Swell all over, for some hundreds of steps: every row moves.
#[test]
fn swell_all_over() {
    trials("swell", 4, |rng| {
        let side = |rng: &mut Rng| rng.between(1_000_000, 5_000_000) as u32;
        let card = Card {
            columns: 128,
            rows: 128,
            dx: side(rng),
            dy: side(rng),
            dt: rng.between(1, 60) as u32,
            steps: rng.between(50, 200) as u32,
        };
        let depth = rng.between(1_000_000, 3_000_000);
        let site = lake(rng, card, depth, |_, _| true);
        keeps_its_water(&site);
    });
}
