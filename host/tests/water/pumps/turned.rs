//! Demand 3 with pumps: the site turned, the pumps' cells turned with it and their list's order kept, the run has the same steps, reason, top,
//! added and taken, and ends in the first run's end state turned.

use crate::model::TURNS;
use crate::trials::{single, trials};
use crate::wild::{self, Wild};
use water::calls;

/// The tally and the end state of the library's run.
fn ended(site: &Wild, pumps: &[i32]) -> (water::Tally, Vec<i32>) {
    let (mut state, mut scratch) = (site.state.clone(), vec![0; site.state.len()]);
    let tally = calls::run(site.card, &site.ground, &mut state, pumps, &mut scratch);
    (tally, state)
}

#[test]
fn turned_runs() {
    // runs that were stopped, that added and took something, and that have several pumps on one cell
    let (mut stopped, mut felt, mut shared) = (0, 0, 0);
    trials("turned pumps", 4_000, |rng| {
        let mut site = wild::good(rng);
        site.card.steps = rng.below(25) as u32;
        let pumps = wild::pumps(rng, &site);
        let end = ended(&site, &pumps);
        stopped += u64::from(end.0.reason.is_some());
        felt += u64::from(end.0.added > 0 && end.0.taken > 0);
        let mut cells: Vec<i32> = pumps.chunks_exact(2).map(|pump| pump[0]).collect();
        cells.sort_unstable();
        shared += u64::from(end.0.steps > 0 && cells.windows(2).any(|pair| pair[0] == pair[1]));
        for turn in &TURNS {
            let turned_end = ended(&site.turned(turn), &turn.pumps(&site.card, &pumps));
            assert_eq!(turned_end.0, end.0, "{}: the same tally", turn.name);
            let after = Wild { state: end.1.clone(), ..site.clone() };
            assert!(turned_end.1 == after.turned(turn).state, "{}: the end state turned", turn.name);
        }
    });
    println!(
        "turned pumps: {stopped} of the runs were stopped on their way, {felt} added and took, {shared} had several on one cell"
    );
    assert!(single() || (stopped > 200 && felt > 600 && shared > 600));
}

/// The pumps' turns themselves, on 3 columns and 2 rows; taken twice, each gives the list back.
#[test]
fn pumps_turned() {
    let card = water::Card { columns: 3, rows: 2, dx: 1_000_000, dy: 1_000_000, dt: 1, steps: 0 };
    let pumps = [0, 5, 2, -6, 3, 7, 2, 8];
    let expected = [[2, 5, 0, -6, 5, 7, 0, 8], [3, 5, 5, -6, 0, 7, 5, 8], [0, 5, 4, -6, 1, 7, 4, 8]];
    for (turn, expected) in TURNS.iter().zip(expected) {
        let turned = turn.pumps(&card, &pumps);
        assert_eq!(turned, expected, "{}", turn.name);
        assert_eq!(turn.pumps(&(turn.card)(card), &turned), pumps, "{} twice", turn.name);
    }
}
