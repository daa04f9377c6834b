//! The run on random and hostile sites: tally, last accepted state, and a scratch that is zero afterwards.

use crate::given::Given;
use crate::lent::room;
use crate::rng::Rng;
use crate::trials::{single, trials};
use crate::wild::{self, Wild};
use crate::{library, model};
use water::raw::{Card, Tally};

#[test]
fn random_sites() {
    let mut given = Given::default();
    let mut stopped_on_the_way = 0;
    trials("run", 20_000, |rng| {
        let mut site = wild::any(rng);
        let mut scratch = room(rng, site.state.len());
        let tally = library::run(rng, site.card, &site.ground, &mut site.state, &mut scratch);
        given.count(tally.reason);
        stopped_on_the_way += u64::from(tally.reason > 3 && tally.steps > 0);
    });
    // 6 has no input, as for the step
    given.assert_often("run", &[0, 1, 2, 3, 4, 5, 7], 60);
    println!("run: {stopped_on_the_way} were stopped after at least one accepted step");
    assert!(single() || stopped_on_the_way >= 200);
}

/// A refused run touches neither list; a stopped or finished one leaves scratch zero, for 0 steps wanted too.
#[test]
fn what_is_left_in_the_lists() {
    let card = Card { columns: 2, rows: 1, dx: 1_000_000, dy: 1_000_000, dt: 100, steps: 0 };
    let run = |card: Card, middle: i32| {
        let (mut state, mut scratch) = (vec![5, 6, 0, middle, 0, 0, 0, 0, 0], vec![9; 9]);
        let tally = library::run(&mut Rng::new(1), card, &[0, 0], &mut state, &mut scratch);
        (tally, state, scratch)
    };
    let lent = |middle: i32| vec![5, 6, 0, middle, 0, 0, 0, 0, 0];
    assert_eq!(run(card, 3), (Tally { steps: 0, reason: 0, top: 6, added: 0, taken: 0 }, lent(3), vec![0; 9]));
    assert_eq!(run(Card { dt: 0, ..card }, 3), (Tally { steps: 0, reason: 1, top: 0, added: 0, taken: 0 }, lent(3), vec![9; 9]));
    assert_eq!(
        run(Card { rows: 2, ..card }, 3),
        (Tally { steps: 0, reason: 2, top: 0, added: 0, taken: 0 }, lent(3), vec![9; 9])
    );
    let fast = 20_000_001;
    assert_eq!(run(card, fast), (Tally { steps: 0, reason: 3, top: 0, added: 0, taken: 0 }, lent(fast), vec![9; 9]));
    let brisk = 10_000_001;
    let stopped = (Tally { steps: 0, reason: 4, top: 6, added: 0, taken: 0 }, lent(brisk), vec![0; 9]);
    assert_eq!(run(Card { steps: 1, ..card }, brisk), stopped);
    // no step wanted, so that no step is refused
    assert_eq!(run(card, brisk).0, Tally { steps: 0, reason: 0, top: 6, added: 0, taken: 0 });
}

/// Each reason that a step can give, 4, 5 and 7, met in the middle of a run.
#[test]
fn each_reason_on_the_way() {
    let card = Card { columns: 2, rows: 1, dx: 1_000_000, dy: 1_000_000, dt: 100, steps: 100 };
    let run = |card: Card, ground: [i32; 2], heights: [i32; 2], middle: i32| {
        let mut state = [heights[0], heights[1], 0, middle, 0, 0, 0, 0, 0];
        library::run(&mut Rng::new(1), card, &ground, &mut state, &mut [1; 9])
    };
    // down a step of 4 m the water gets faster, until more would leave the upper cell than it holds
    let four = run(card, [4_000_000, 0], [1_000_000, 1_000_000], 0);
    assert_eq!((four.reason, four.top), (4, 1_994_049));
    // a cell that is nearly full takes in more than it has room for
    let five = run(card, [0, -30_000_000], [20_000_000, 49_500_000], 0);
    assert_eq!(five.reason, 5);
    // down a cliff the water gets faster with each step; wide cells and a short step keep the step limit out of the way
    let seven = run(Card { dt: 500, dx: 20_000_000, ..card }, [20_000_000, -20_000_000], [1_000_000, 1_000_000], 0);
    assert_eq!(seven.reason, 7);
    assert!(four.steps > 0 && five.steps > 0 && seven.steps > 0, "on the way: {four:?}, {five:?}, {seven:?}");
    println!("reasons reached: {four:?}, {five:?}, {seven:?}");
}

/// Document 01's dry bank, which pulled harder with each step until the step limit was broken, does all its steps, and nothing moves.
#[test]
fn the_dry_bank_lies_still() {
    let card = Card { columns: 2, rows: 1, dx: 1_000_000, dy: 1_000_000, dt: 100, steps: 100 };
    let start = [1_000_000, 0, 0, 0, 0, 0, 0, 0, 0];
    let (mut state, mut scratch) = (start, [1; 9]);
    let tally = library::run(&mut Rng::new(1), card, &[0, 1_500_000], &mut state, &mut scratch);
    assert_eq!((tally, state, scratch), (Tally { steps: 100, reason: 0, top: 1_000_000, added: 0, taken: 0 }, start, [0; 9]));
}

/// Top is met in the start, in the middle and at the end of runs; it is not the last state's greatest height.
#[test]
fn top_is_of_all_states() {
    let (mut at_start, mut later, mut passed) = (0, 0, 0);
    trials("top", 400, |rng| {
        let mut site = wild::good(rng);
        site.card.steps = 20;
        let cells = model::cells(&site.card);
        let greatest = |state: &[i32]| *state[..cells].iter().max().unwrap();
        let start = greatest(&site.state);
        let mut scratch = vec![0; site.state.len()];
        let tally = library::run(rng, site.card, &site.ground, &mut site.state, &mut scratch);
        let end = greatest(&site.state);
        at_start += u64::from(tally.top == start);
        later += u64::from(tally.top > start);
        passed += u64::from(tally.top > start && tally.top > end);
    });
    println!("top: {at_start} at the start, {later} later, {passed} of them passed before the end");
    assert!(single() || (at_start > 20 && later > 20 && passed > 10));
}

/// A long run on a middling site: the same as the model.
#[test]
fn a_long_run() {
    let card = Card { columns: 12, rows: 9, dx: 1_000_000, dy: 1_300_000, dt: 20, steps: 500 };
    let mut site = Wild::empty(card);
    for (k, height) in site.state[..108].iter_mut().enumerate() {
        *height = if k % 12 < 4 { 2_000_000 } else { 1_000_000 + 1_000 * k as i32 };
    }
    let tally = library::run(&mut Rng::new(1), card, &site.ground, &mut site.state, &mut vec![3; 108 + 117 + 120]);
    assert_eq!((tally.steps, tally.reason), (500, 0));
}
