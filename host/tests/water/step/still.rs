//! Still rows beside rows that move: what a step passes over must come out as the model works it out face by face.

use crate::given::Given;
use crate::library;
use crate::rng::Rng;
use crate::trials::trials;
use crate::wild::Wild;
use water::raw::Card;

/// A site of up to 9 by 9 cells, now and then of 128 rows or columns, partly dry, on ground that is level in places and now and then steep,
/// where no face moves yet.
fn still(rng: &mut Rng) -> Wild {
    let (columns, rows) = match rng.below(64) {
        0 => (rng.between(1, 2) as u32, 128),
        1 => (128, rng.between(1, 2) as u32),
        _ => (rng.between(1, 9) as u32, rng.between(1, 9) as u32),
    };
    let card = Card { columns, rows, dx: 1_000_000, dy: 2_000_000, dt: rng.pick(&[1, 20, 100]), steps: rng.below(4) as u32 };
    let mut site = Wild::empty(card);
    let (dry, level) = (rng.pick(&[0, 30, 90, 100]), rng.percent(50));
    let steep = if rng.percent(25) { 50_000_000 } else { 300_000 };
    for k in 0..site.ground.len() {
        site.ground[k] = if rng.percent(60) { 0 } else { rng.between(-steep, steep) as i32 };
        let surface = if level { 1_000_000 } else { rng.between(0, 1_000_000) };
        site.state[k] = if rng.percent(dry) { 0 } else { (surface as i32 - site.ground[k]).clamp(0, 50_000_000) };
    }
    site
}

/// The same, with some faces that move: whole rows of them, and single ones at the ends and in the middle of a row.
fn partly_moving(rng: &mut Rng) -> Wild {
    let mut site = still(rng);
    let Card { columns, rows, .. } = site.card;
    let mut moving = Vec::new();
    for j in (0..rows).filter(|_| columns > 1) {
        match rng.below(6) {
            0 => moving.extend((1..columns).map(|i| site.east(i, j))),
            1 => moving.push(site.east(rng.pick(&[1, columns / 2, columns - 1]), j)),
            _ => (),
        }
    }
    for j in 1..rows {
        match rng.below(6) {
            0 => moving.extend((0..columns).map(|i| site.north(i, j))),
            1 => moving.push(site.north(rng.pick(&[0, columns / 2, columns - 1]), j)),
            _ => (),
        }
    }
    let fastest = if rng.percent(20) { 20_000_000 } else { 900_000 };
    for place in moving {
        site.state[place] = rng.between(-fastest, fastest) as i32;
    }
    site
}

fn step_and_run(rng: &mut Rng, site: &Wild) -> u32 {
    let mut next = vec![-7; site.state.len()];
    let number = library::step(rng, site.card, &site.ground, &site.state, &mut next);
    let (mut state, mut scratch) = (site.state.clone(), vec![-7; site.state.len()]);
    library::run(rng, site.card, &site.ground, &mut state, &mut scratch);
    number
}

#[test]
fn still_sites() {
    let mut given = Given::default();
    trials("still sites", 800, |rng| {
        let site = still(rng);
        given.count(step_and_run(rng, &site));
    });
    given.assert_often("still sites", &[0, 7], 200);
}

#[test]
fn some_rows_move() {
    let mut given = Given::default();
    trials("some rows move", 2_000, |rng| {
        let site = partly_moving(rng);
        given.count(step_and_run(rng, &site));
    });
    given.assert_some("some rows move", &[0, 4, 7], 200);
}

/// One face that moves, anywhere on the site, with all the others still: each place that a look at a row could miss.
#[test]
fn each_face_alone() {
    for (columns, rows) in [(1, 2), (2, 1), (2, 2), (3, 3), (5, 4), (1, 128), (2, 128), (128, 2)] {
        let rng = &mut Rng::new(u64::from(columns * 10 + rows));
        let mut site = Wild::empty(Card { columns, rows, dx: 1_000_000, dy: 1_000_000, dt: 20, steps: 2 });
        let cells = site.ground.len();
        site.state[..cells].fill(500_000);
        for place in site.inner_faces() {
            for velocity in [-1_000_000, 1] {
                site.state[place] = velocity;
                assert_eq!(step_and_run(rng, &site), 0);
            }
            site.state[place] = 0;
        }
    }
}
