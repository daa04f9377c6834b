//! A basin with an inlet and a pump, whole numbers beside doubles: step by step from the library's own numbers, and the doubles on their own
//! for as long.

use super::scheme::{step, Water};
use super::steps::{compare_step, report, Seen};
use crate::wild::Wild;
use water::{calls, Card};

/// A pump or an inlet, by its cell.
struct Pump {
    cell: usize,
    amount: f64,
}

/// What pumps make of the doubles, and how much they added and took.
fn pump(water: &mut Water, pumps: &[Pump]) -> [f64; 2] {
    let mut moved = [0.0; 2];
    for &Pump { cell, amount } in pumps {
        let height = &mut water.heights[cell];
        let change = amount.max(-*height);
        *height += change;
        moved[usize::from(amount < 0.0)] += change.abs();
    }
    moved
}

fn read(words: &[i32]) -> Vec<Pump> {
    words.chunks_exact(2).map(|pump| Pump { cell: pump[0] as usize, amount: f64::from(pump[1]) }).collect()
}

/// 20 by 12 cells of 1 m, deepest in the middle, with 40 cm of water there.
fn basin() -> Wild {
    let mut site = Wild::empty(Card { columns: 20, rows: 12, dx: 1_000_000, dy: 1_000_000, dt: 50, steps: 400 });
    for k in 0..site.ground.len() {
        let (i, j) = (k as i32 % 20, k as i32 / 20);
        site.ground[k] = 1_000 * ((2 * i - 19).pow(2) + (2 * j - 11).pow(2));
        site.state[k] = 700_000 - site.ground[k];
    }
    site
}

/// The inlet is in the south-west corner, and two pumps work in the middle, the second of them on the cell of a small inlet and so strong
/// that it mostly finds less than it could take.
const PUMPS: [i32; 8] = [0, 4_000, 5 * 20 + 10, -9_000, 6 * 20 + 9, 1_000, 6 * 20 + 9, -300_000];

#[test]
fn a_basin_with_an_inlet_and_a_pump() {
    let mut site = basin();
    let mut seen = Seen::default();
    let mut next = site.state.clone();
    for _ in 0..site.card.steps {
        calls::step(site.card, &site.ground, &site.state, &PUMPS, &mut next).expect("gentle pumps");
        let mut before = Water::of(&site.card, &site.state);
        pump(&mut before, &read(&PUMPS));
        compare_step(&site, &before, &next, &mut seen);
        std::mem::swap(&mut site.state, &mut next);
    }
    report("a pumped basin", &seen);
    assert_eq!(seen.heights, 400 * 240);
    assert!(seen.velocities > 100_000);
}

/// On their own the doubles end near the whole numbers, and add and take as much.
#[test]
fn a_pumped_basin_on_its_own() {
    let start = basin();
    let mut water = Water::of(&start.card, &start.state);
    let (mut added, mut taken) = (0.0, 0.0);
    for _ in 0..start.card.steps {
        let moved = pump(&mut water, &read(&PUMPS));
        added += moved[0];
        taken += moved[1];
        water = step(&start.card, &start.ground, &water);
    }
    let (mut state, mut scratch) = (start.state.clone(), vec![0; start.state.len()]);
    let tally = calls::run(start.card, &start.ground, &mut state, &PUMPS, &mut scratch);
    assert_eq!((tally.steps, tally.reason), (start.card.steps, None));
    let off =
        water.heights.iter().zip(&state).fold(0.0, |most: f64, (double, &whole)| most.max((double - f64::from(whole)).abs()));
    let fell = start.state[..240].iter().zip(&state).fold(0, |most, (then, now)| most.max(then - now));
    println!("floats, a pumped basin: a cell fell by {fell} µm, and the doubles on their own end within {off:.1} µm");
    println!("floats, a pumped basin: {} and {added:.1} µm added, {} and {taken:.1} µm taken", tally.added, tally.taken);
    assert!(fell > 10_000, "the pumps are felt");
    assert!(off < 1_000.0, "the doubles end {off} µm off");
    assert_eq!(tally.added as f64, added, "inlets that fit add their amounts");
    assert!(tally.taken < 400 * 309_000, "the strong pump ran dry");
    assert!((tally.taken as f64 / taken - 1.0).abs() < 1e-4, "{} µm taken, and {taken} in doubles", tally.taken);
}
