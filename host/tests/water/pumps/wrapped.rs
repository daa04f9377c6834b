//! The wrapper's pumps, by column and row: each finds its cell, and one that the site has not is refused and is no other cell.

use crate::model;
use crate::trials::{single, trials};
use crate::wild::{self, Wild};
use water::{Card, Pump, Refusal, Site, Tally};

/// The words of pumps whose cells the site has.
fn words(card: &Card, pumps: &[Pump]) -> Vec<i32> {
    pumps.iter().flat_map(|pump| [(pump.row * card.columns + pump.column) as i32, pump.amount]).collect()
}

fn site_of(wild: &Wild) -> Site {
    Site::new(wild.card, wild.ground.clone(), wild.state.clone()).unwrap()
}

#[test]
fn a_site_steps_and_runs_as_the_model() {
    let (mut accepted, mut refused) = (0, 0);
    trials("pumped site", 1_500, |rng| {
        let start = wild::good(rng);
        let card = start.card;
        let count = rng.pick(&[0, 1, 3, 63, 64]);
        let mut pump = || Pump {
            column: rng.below(card.columns.into()) as u32,
            row: rng.below(card.rows.into()) as u32,
            amount: rng.between(-100_000, 100_000) as i32,
        };
        let pumps: Vec<Pump> = (0..count).map(|_| pump()).collect();
        let listed = words(&card, &pumps);
        let (mut site, mut textbook) = (site_of(&start), site_of(&start));
        let mut next = start.state.clone();
        let number = model::step(card, &start.ground, &start.state, &listed, &mut next);
        assert_eq!(site.step_with(&pumps).map_or_else(Refusal::number, |()| 0), number);
        assert_eq!(site.state(), next);
        assert_eq!(textbook.step_textbook_with(&pumps).map_or_else(Refusal::number, |()| 0), number);
        assert_eq!(textbook, site, "by the textbook engine");
        let (mut site, mut state) = (site_of(&start), start.state.clone());
        let expected = model::run(card, &start.ground, &mut state, &listed, &mut vec![0; next.len()]);
        let tally = site.run_with(&pumps);
        assert_eq!(
            (tally.steps, tally.reason.map_or(0, Refusal::number), tally.top),
            (expected.steps, expected.reason, expected.top)
        );
        assert_eq!((tally.added, tally.taken), (expected.added, expected.taken));
        assert_eq!(site.state(), state);
        accepted += u32::from(number == 0 && count > 0);
        refused += u32::from(number != 0 && count > 0);
    });
    println!("pumped site: {accepted} steps accepted, {refused} refused");
    assert!(single() || (accepted > 300 && refused > 100));
}

/// 3 columns and 2 rows, with heights of which each cell's is its own.
fn six_cells() -> Site {
    let card = Card { columns: 3, rows: 2, dx: 1_000_000, dy: 1_000_000, dt: 1, steps: 1 };
    Site::still(card, vec![0; 6], &[1, 2, 3, 4, 5, 6]).unwrap()
}

#[test]
fn each_cell_by_column_and_row() {
    for row in 0..2 {
        for column in 0..3 {
            let mut site = six_cells();
            site.step_with(&[Pump { column, row, amount: 1_000 }]).unwrap();
            let cell = (row * 3 + column) as usize;
            let mut expected = [1, 2, 3, 4, 5, 6];
            expected[cell] += 1_000;
            assert_eq!(site.heights(), expected);
        }
    }
}

/// One column or one row too far is no cell of the next row, and no number of columns and rows goes round to one.
#[test]
fn columns_and_rows_that_the_site_has_not() {
    let far = [3, 4, 5, 6, 1 << 16, 1 << 31, (1 << 31) + 1, u32::MAX];
    let wrong = far.into_iter().flat_map(|place| [(place, 0), (place, 1), (0, place), (2, place), (place, place)]);
    // 3·1,431,655,766 is 2 more than 2^32, and 3·2,863,311,531 is 1 more than 2^33
    let round = [(0, 2), (1, 2), (0, 1_431_655_766), (1, 2_863_311_531), (0, 1_431_655_765)];
    for (column, row) in wrong.chain(round) {
        for amount in [0, 5, -5] {
            let pump = Pump { column, row, amount };
            let fine = Pump { column: 1, row: 1, amount: 7 };
            for pumps in [vec![pump], vec![fine, pump], vec![pump, fine]] {
                let mut site = six_cells();
                assert_eq!(site.step_with(&pumps), Err(Refusal::Value), "{pumps:?}");
                assert_eq!(site.step_textbook_with(&pumps), Err(Refusal::Value), "{pumps:?}");
                let refused = Tally { steps: 0, reason: Some(Refusal::Value), top: 0, added: 0, taken: 0 };
                assert_eq!(site.run_with(&pumps), refused, "{pumps:?}");
                assert_eq!(site, six_cells());
            }
        }
    }
}

/// The library's own order: over 64 pumps are 1 though a cell is wrong, and a wrong cell is 3 though an amount is, too.
#[test]
fn how_many_pumps() {
    let (fine, wrong) = (Pump { column: 2, row: 1, amount: 1 }, Pump { column: 3, row: 0, amount: 1 << 30 });
    for (count, answer) in
        [(0, Ok(())), (1, Ok(())), (64, Ok(())), (65, Err(Refusal::Card)), (66, Err(Refusal::Card)), (10_000, Err(Refusal::Card))]
    {
        let mut site = six_cells();
        let pumps = vec![fine; count];
        assert_eq!(site.step_with(&pumps), answer, "{count} pumps");
        assert_eq!(site.height(2, 1), 6 + if answer.is_ok() { count as i32 } else { 0 });
        assert_eq!(six_cells().run_with(&pumps).reason, answer.err());
    }
    for (count, refusal) in [(1, Refusal::Value), (64, Refusal::Value), (65, Refusal::Card), (1_000, Refusal::Card)] {
        assert_eq!(six_cells().step_with(&vec![wrong; count]), Err(refusal), "{count} pumps");
        assert_eq!(six_cells().step_textbook_with(&vec![wrong; count]), Err(refusal), "{count} pumps");
    }
    // of 65 the last alone is wrong, and of 64
    assert_eq!(six_cells().step_with(&[vec![fine; 64], vec![wrong]].concat()), Err(Refusal::Card));
    assert_eq!(six_cells().step_with(&[vec![fine; 63], vec![wrong]].concat()), Err(Refusal::Value));
}

/// Without pumps a site does what it did: `step`, `step_textbook`, `run` and `run_in_slices` are those with none.
#[test]
fn no_pumps() {
    trials("no pumps", 400, |rng| {
        let start = wild::good(rng);
        let site = site_of(&start);
        let pair = || (site.clone(), site.clone());
        let (mut one, mut other) = pair();
        assert_eq!((one.step(), &one), (other.step_with(&[]), &other));
        let (mut one, mut other) = pair();
        assert_eq!((one.step_textbook(), &one), (other.step_textbook_with(&[]), &other));
        let (mut one, mut other) = pair();
        let tally = one.run();
        assert_eq!((tally, &one), (other.run_with(&[]), &other));
        assert_eq!((tally.added, tally.taken), (0, 0));
    });
}

/// A volume from a sum of heights, for the least and the most that there can be.
#[test]
fn the_volume_of_what_was_moved() {
    let card = Card { dx: 20_000_000, dy: 20_000_000, ..Card::default() };
    assert_eq!(card.volume(0), 0);
    assert_eq!(card.volume(640_000_000_000), 256_000_000_000_000_000_000_000_000);
    let any = Card { dx: u32::MAX, dy: u32::MAX, ..card };
    assert_eq!(any.volume(u64::MAX), u128::from(u64::MAX) * u128::from(u32::MAX) * u128::from(u32::MAX));
}
