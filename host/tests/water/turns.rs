//! Demand 3 on random runs: the turned run has the same steps, reason and top, and ends in the first run's end state turned.

use crate::model::{Site, TURNS};
use crate::trials::{single, trials};
use crate::wild::{self, Wild};
use water::calls;

#[test]
fn turned_runs() {
    let (mut stopped, mut with_banks) = (0, 0);
    trials("turns", 4_000, |rng| {
        let mut site = wild::good(rng);
        site.card.steps = rng.below(25) as u32;
        let end = ended(&site);
        stopped += u64::from(end.0.reason.is_some());
        with_banks += u64::from(end.0.steps > 0 && site.banks_in(&end.1) > 0);
        for turn in &TURNS {
            let turned_end = ended(&site.turned(turn));
            assert_eq!(turned_end.0, end.0, "{}: the same tally", turn.name);
            let expected = (turn.state)(&Site { card: site.card, ground: &site.ground, state: &end.1 });
            assert!(turned_end.1 == expected, "{}: the end state turned", turn.name);
        }
    });
    println!("turns: {stopped} of the runs were stopped on their way, {with_banks} ended with dry banks beside water");
    assert!(single() || (stopped > 100 && with_banks > 400));
}

/// The tally and the end state of the library's run.
fn ended(site: &Wild) -> (water::Tally, Vec<i32>) {
    let (mut state, mut scratch) = (site.state.clone(), vec![0; site.state.len()]);
    let tally = calls::run(site.card, &site.ground, &mut state, &[], &mut scratch);
    (tally, state)
}

/// The turns themselves: each taken twice gives the site back, and none of them is the identity.
#[test]
fn each_turn_twice() {
    let mut changed = [0; 3];
    trials("turns twice", 500, |rng| {
        let site = wild::good(rng);
        for (turn, changed) in TURNS.iter().zip(&mut changed) {
            let once = site.turned(turn);
            assert_eq!(once.turned(turn), site, "{}", turn.name);
            *changed += u64::from(once != site);
        }
    });
    assert!(single() || changed.iter().all(|&times| times > 250), "{changed:?}");
}
