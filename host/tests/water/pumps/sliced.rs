//! A run in slices adds the totals up: it ends as the whole run does, in every number of the tally.

use crate::trials::{single, trials};
use crate::wild;
use std::ops::ControlFlow;
use water::{calls, Card, Pump, Refusal, Site, Tally};

#[test]
fn slices_end_as_a_whole_run() {
    let (mut stopped, mut finished, mut felt) = (0, 0, 0);
    trials("pumped slices", 1_500, |rng| {
        let start = wild::good(rng);
        let card = Card { steps: rng.below(60) as u32, ..start.card };
        let pumps: Vec<Pump> = wild::pumps(rng, &start)
            .chunks_exact(2)
            .map(|pump| (pump[0] as u32, pump[1]))
            .map(|(cell, amount)| Pump { column: cell % card.columns, row: cell / card.columns, amount })
            .collect();
        let mut whole = Site::new(card, start.ground, start.state).unwrap();
        let mut sliced = whole.clone();
        let slice = rng.between(1, 20) as u32;
        let tally = whole.run_with(&pumps);
        let mut looks = 0;
        let joined = sliced.run_in_slices_with(&pumps, slice, |_, so_far| {
            looks += 1;
            assert_eq!((so_far.steps, so_far.reason), ((looks * slice).min(card.steps), None));
            ControlFlow::Continue(())
        });
        assert_eq!(joined, tally);
        assert_eq!(sliced, whole);
        stopped += u32::from(tally.reason.is_some() && tally.steps > slice);
        finished += u32::from(tally.reason.is_none() && tally.steps > slice);
        felt += u32::from(tally.steps > slice && tally.added > 0 && tally.taken > 0);
    });
    println!("pumped slices: {stopped} runs stopped behind a slice, {finished} did more than a slice and finished, {felt} added and took");
    assert!(single() || (stopped >= 25 && finished >= 100 && felt >= 60));
}

/// By the calls themselves: a run of 7 steps and one of 5 behind it are the run of 12.
#[test]
fn two_runs_are_one() {
    let card = Card { columns: 2, rows: 1, dx: 1_000_000, dy: 1_000_000, dt: 100, steps: 12 };
    let pumps = [0, -30_000, 1, 4_000];
    let start = [200_000, 100_000, 0, 0, 0, 0, 0, 0, 0];
    let run = |steps: u32, state: &mut [i32; 9]| calls::run(Card { steps, ..card }, &[0, 0], state, &pumps, &mut [0; 9]);
    let (mut whole, mut parts) = (start, start);
    let all = run(12, &mut whole);
    let (first, second) = (run(7, &mut parts), run(5, &mut parts));
    assert_eq!(parts, whole);
    assert_eq!((first.added + second.added, first.taken + second.taken), (all.added, all.taken));
    assert_eq!(all.added, 48_000);
    assert!(first.taken > 0 && second.taken > 0 && all.taken < 12 * 30_000, "the pump ran dry: {all:?}");
}

/// Pumps that are refused: the first look is never taken, and nothing is touched.
#[test]
fn refused_pumps_in_slices() {
    let card = Card { columns: 2, rows: 1, dx: 1_000_000, dy: 1_000_000, dt: 100, steps: 12 };
    let mut site = Site::still(card, vec![0, 0], &[200_000, 100_000]).unwrap();
    let start = site.clone();
    let pump = Pump { column: 0, row: 0, amount: -1_000_001 };
    for (pumps, refusal) in [(vec![pump], Refusal::Value), (vec![pump; 65], Refusal::Card)] {
        let tally = site.run_in_slices_with(&pumps, 3, |_, _| panic!("no slice was done"));
        assert_eq!(tally, Tally { steps: 0, reason: Some(refusal), top: 0, added: 0, taken: 0 });
        assert_eq!(site, start);
    }
}

/// Broken off, the tally is that of the steps done.
#[test]
fn a_look_can_break_it_off() {
    let card = Card { columns: 1, rows: 1, dx: 1_000_000, dy: 1_000_000, dt: 100, steps: 10_000 };
    let mut site = Site::still(card, vec![0], &[7_000]).unwrap();
    let pumps = [Pump { column: 0, row: 0, amount: -10 }, Pump { column: 0, row: 0, amount: 4 }];
    let tally =
        site.run_in_slices_with(
            &pumps,
            3,
            |_, so_far| {
                if so_far.taken < 90 {
                    ControlFlow::Continue(())
                } else {
                    ControlFlow::Break(())
                }
            },
        );
    assert_eq!(tally, Tally { steps: 9, reason: None, top: 7_000, added: 36, taken: 90 });
    assert_eq!(site.heights(), [6_946]);
}
