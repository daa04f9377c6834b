//! Pumps and inlets, document 02's [10]: numbers by hand, each refusal at its boundary and in its order, random and hostile lists, the
//! balance, the three turns, slices, and the wrapper's pumps by column and row. Both engines make every step here (library.rs).

mod balance;
mod boundary;
mod numbers;
mod order;
mod random;
mod sliced;
mod top;
mod turned;
mod undone;
mod wrapped;

use crate::library;
use crate::rng::Rng;
use crate::wild::Wild;
use water::raw::{Card, Tally};

const CARD: Card = Card { columns: 2, rows: 1, dx: 1_000_000, dy: 1_000_000, dt: 100, steps: 1 };
const TOP: i32 = 50_000_000;
const MOST: i32 = 1_000_000;

/// The number of a step and what it leaves in the next state, lent full of -7.
fn stepped(site: &Wild, pumps: &[i32]) -> (u32, Vec<i32>) {
    let mut next = vec![-7; site.state.len()];
    let number = library::step_with(&mut Rng::new(4), site.card, &site.ground, &site.state, pumps, &mut next);
    if number != 0 {
        assert!(next.iter().all(|&word| word == -7), "a refused step leaves the next state as lent");
    }
    (number, next)
}

/// The tally of a run and the state that it leaves; scratch is zero, or as lent where the first three checks refuse.
fn ran(site: &Wild, pumps: &[i32]) -> (Tally, Vec<i32>) {
    let (mut state, mut scratch) = (site.state.clone(), vec![-7; site.state.len()]);
    let tally = library::run_with(&mut Rng::new(5), site.card, &site.ground, &mut state, pumps, &mut scratch);
    let left = if (1..=3).contains(&tally.reason) { -7 } else { 0 };
    assert!(scratch.iter().all(|&word| word == left));
    (tally, state)
}

/// A row of cells with these heights, on flat ground and without a velocity yet, so that the heights after one step are the pumped ones. Wide
/// cells and the shortest time step keep every slope in its range.
fn still_row(heights: &[i32]) -> Wild {
    let card = Card { columns: heights.len() as u32, rows: 1, dx: 20_000_000, dy: 20_000_000, dt: 1, steps: 1 };
    let mut site = Wild::empty(card);
    site.state[..heights.len()].copy_from_slice(heights);
    site
}

/// The heights that pumps make of a row of cells, by a step and by a run of one step; or the number that refuses both.
fn pumped(heights: &[i32], pumps: &[i32]) -> Result<Vec<i32>, u32> {
    let site = still_row(heights);
    let ((number, next), (tally, state)) = (stepped(&site, pumps), ran(&site, pumps));
    assert_eq!((tally.reason, tally.steps), (number, u32::from(number == 0)), "a run of one step is the step");
    if number != 0 {
        assert_eq!((tally.added, tally.taken), (0, 0), "a refused step adds and takes nothing");
        assert_eq!(state, site.state, "a refused step is undone");
        return Err(number);
    }
    assert_eq!(state, next);
    Ok(next[..heights.len()].to_vec())
}

/// What a run of one step says was added and taken.
fn moved(heights: &[i32], pumps: &[i32]) -> (u64, u64) {
    let tally = ran(&still_row(heights), pumps).0;
    (tally.added, tally.taken)
}

/// One cell with so much water: nothing moves but by pumps.
fn one_cell(height: i32) -> Wild {
    let mut site = Wild::empty(Card { columns: 1, ..CARD });
    site.state[0] = height;
    site
}
