//! The safe wrapper over the calls: typed refusals with the document's numbers, and a site that owns its lists.

use crate::given::Given;
use crate::lent::hurt_length;
use crate::model::{self, TURNS};
use crate::trials::{single, trials};
use crate::wild::{self, Wild};
use std::ops::ControlFlow;
use water::{calls, Card, Chamber, Refusal, Site, Tally, Window};

/// The number of an answer, 0 if it was not refused.
fn number<T>(answer: &Result<T, Refusal>) -> u32 {
    match answer {
        Ok(_) => 0,
        Err(refusal) => refusal.number(),
    }
}

#[test]
fn every_refusal_has_its_number() {
    let refusals = [
        (1, Refusal::Card),
        (2, Refusal::Length),
        (3, Refusal::Value),
        (4, Refusal::StepLimit),
        (5, Refusal::TooHigh),
        // 6 is unused
        (7, Refusal::TooFast),
        (8, Refusal::Room { needed: 3 }),
        (9, Refusal::Sheet),
        (10, Refusal::Raster),
    ];
    for (number, refusal) in refusals {
        assert_eq!(refusal.number(), number);
        assert!(refusal.to_string().ends_with(&format!("({number})")), "{refusal}");
    }
}

/// Document 01's lengths, for cards in range and far out of it: what is too much for a length is the largest one.
#[test]
fn the_lengths_of_any_card() {
    let sizes = [0, 1, 2, 128, 129, 65_536, 1 << 31, u32::MAX];
    for (columns, rows) in sizes.iter().flat_map(|&columns| sizes.map(|rows| (columns, rows))) {
        let card = Card { columns, rows, ..Card::default() };
        let (columns, rows) = (u128::from(columns), u128::from(rows));
        let length = |exact: u128| usize::try_from(exact).unwrap_or(usize::MAX);
        assert_eq!(card.cells(), length(columns * rows));
        assert_eq!(card.eastward_faces(), length((columns + 1) * rows));
        assert_eq!(card.northward_faces(), length(columns * (rows + 1)));
        assert_eq!(card.state_length(), length(3 * columns * rows + columns + rows));
        assert_eq!(card.sheet_size(), length(19 + 16 * columns * rows + 4 * columns + 4 * rows));
        assert_eq!(card.raster_room(), length(63 + 11 * columns * rows));
    }
}

#[test]
fn a_site_is_made_exactly_where_the_checks_pass() {
    let mut given = Given::default();
    trials("site", 3_000, |rng| {
        let site = wild::any(rng);
        let made = Site::new(site.card, site.ground.clone(), site.state.clone());
        assert_eq!(number(&made), model::check(&site.site()));
        given.count(number(&made));
    });
    given.assert_often("site", &[0, 1, 2, 3], 40);
}

/// Heights of the right length and of wrong ones; the model gets them with a velocity of 0 on each face.
#[test]
fn a_still_site_is_made_exactly_where_the_checks_pass() {
    let mut given = Given::default();
    trials("still site", 3_000, |rng| {
        let mut site = wild::any(rng);
        // whatever the card says, nothing of its sizes is believed before it is checked
        let sizes = wild::bounded(&site.card);
        let mut heights = site.state.clone();
        heights.resize(model::cells(&sizes), 0);
        if rng.percent(20) {
            hurt_length(rng, &mut heights);
        }
        let made = Site::still(site.card, site.ground.clone(), &heights);
        let faces = model::state_length(&sizes) - model::cells(&sizes);
        site.state = [heights, vec![0; faces]].concat();
        assert_eq!(number(&made), model::check(&site.site()));
        given.count(number(&made));
        if let Ok(made) = made {
            assert_eq!((made.card(), made.ground(), made.state()), (site.card, &site.ground[..], &site.state[..]));
        }
    });
    given.assert_often("still site", &[0, 1, 2, 3], 40);
}

#[test]
fn a_site_steps_as_the_model() {
    trials("site steps", 1_000, |rng| {
        let start = wild::good(rng);
        let mut site = Site::new(start.card, start.ground.clone(), start.state.clone()).unwrap();
        let mut textbook = site.clone();
        let mut next = start.state.clone();
        let expected = model::step(start.card, &start.ground, &start.state, &[], &mut next);
        assert_eq!(number(&site.step()), expected);
        assert_eq!(site.state(), next);
        assert_eq!((site.card(), site.ground()), (start.card, &start.ground[..]));
        let parts = [site.heights(), site.eastward(), site.northward()].concat();
        assert_eq!(site.state(), parts);
        assert_eq!(number(&textbook.step_textbook()), expected);
        assert_eq!(textbook, site, "by the textbook engine");
    });
}

/// A site of 3 columns and 2 rows, whose heights are 1 to 6.
fn six_cells() -> Site {
    let card = Card { columns: 3, rows: 2, dx: 1_000_000, dy: 1_000_000, dt: 100, steps: 5 };
    Site::still(card, vec![0; 6], &[1, 2, 3, 4, 5, 6]).unwrap()
}

#[test]
fn a_cell_by_column_and_row() {
    let site = six_cells();
    assert_eq!((site.height(0, 0), site.height(2, 0), site.height(0, 1), site.height(2, 1)), (1, 3, 4, 6));
    assert_eq!(site.depth_text(2, 1), "<1 cm");
}

/// A cell's place by column and row, for each cell of a site, one column and one row too far, and cards far out of range.
#[test]
fn a_cells_place() {
    let card = six_cells().card();
    let places = (0..3).flat_map(|row| (0..4).map(move |column| card.cell(column, row)));
    let expected = [Some(0), Some(1), Some(2), None, Some(3), Some(4), Some(5), None, None, None, None, None];
    assert_eq!(places.collect::<Vec<_>>(), expected);
    for far in [3, 6, 1 << 16, 1 << 31, u32::MAX] {
        assert_eq!((card.cell(far, 0), card.cell(0, far), card.cell(far, far)), (None, None, None));
    }
    let last = u32::MAX - 1;
    let vast = Card { columns: u32::MAX, rows: u32::MAX, ..card };
    assert_eq!(vast.cell(last, last), Some(vast.cells() - 1));
    assert_eq!((vast.cell(u32::MAX, last), vast.cell(last, u32::MAX)), (None, None));
    assert_eq!(Card::default().cell(0, 0), None);
}

/// A time step and steps wanted on both sides of each boundary: set, nothing else has changed, and the site runs as one that was made with
/// them; refused, nothing has.
#[test]
fn another_time() {
    let mut moving = 0;
    trials("another time", 100, |rng| {
        let Wild { card, ground, state } = wild::good(rng);
        moving += usize::from(state[card.cells()..].iter().any(|&velocity| velocity != 0));
        let start = Site::new(card, ground.clone(), state.clone()).unwrap();
        for (dt, fits) in [(0, false), (1, true), (2, true), (999, true), (1_000, true), (1_001, false), (u32::MAX, false)] {
            for (steps, fit) in [(0, true), (1, true), (9_999, true), (10_000, true), (10_001, false), (u32::MAX, false)] {
                let mut site = start.clone();
                let answer = site.set_time(dt, steps);
                if !(fits && fit) {
                    assert_eq!((answer, &site), (Err(Refusal::Card), &start), "{dt} ms, {steps} steps");
                    continue;
                }
                assert_eq!(answer, Ok(()), "{dt} ms, {steps} steps");
                assert_eq!(site.card(), Card { dt, steps, ..card });
                assert_eq!((site.ground(), site.state()), (&ground[..], &state[..]));
                if steps == 1 {
                    let mut made = Site::new(site.card(), ground.clone(), state.clone()).unwrap();
                    assert_eq!((site.run(), &site), (made.run(), &made));
                }
            }
        }
    });
    assert!(single() || moving > 30, "{moving} sites had a velocity");
}

#[test]
#[should_panic(expected = "column 3 of 3")]
fn a_column_too_far_east() {
    six_cells().height(3, 0);
}

#[test]
#[should_panic(expected = "row 2 of 2")]
fn a_row_too_far_north() {
    six_cells().height(0, 2);
}

/// Heights times a cell's area, to the last cubic micrometre, for the least and the most water that there can be.
#[test]
fn the_volume_of_a_site() {
    assert_eq!(six_cells().volume(), 21 * 1_000_000 * 1_000_000);
    let card = Card { columns: 128, rows: 128, dx: 20_000_000, dy: 20_000_000, dt: 1, steps: 0 };
    let filled = |card: Card, height: i32| {
        let cells = card.cells();
        Site::still(card, vec![0; cells], &vec![height; cells]).unwrap().volume()
    };
    assert_eq!(filled(card, 0), 0);
    assert_eq!(filled(card, 50_000_000), 327_680_000_000_000_000_000_000_000);
    assert!(filled(card, 50_000_000) > u64::MAX.into(), "a u64 does not hold it");
    assert_eq!(filled(Card { columns: 1, rows: 1, dx: 100_000, dy: 100_001, ..card }, 1), 10_000_100_000);
}

/// No step and no run changes it, and no turn of the site does.
#[test]
fn the_volume_stays() {
    trials("volume", 500, |rng| {
        let start = wild::good(rng);
        let volume = |site: &Wild| Site::new(site.card, site.ground.clone(), site.state.clone()).unwrap().volume();
        let sum = u128::try_from(model::sum_of_heights(&start.card, &start.state)).unwrap();
        assert_eq!(volume(&start), sum * u128::from(start.card.dx) * u128::from(start.card.dy));
        for turn in &TURNS {
            assert_eq!(volume(&start.turned(turn)), volume(&start), "{}", turn.name);
        }
        let mut site = Site::new(start.card, start.ground.clone(), start.state.clone()).unwrap();
        let _ = site.step();
        assert_eq!(site.volume(), volume(&start));
        site.run();
        assert_eq!(site.volume(), volume(&start));
    });
}

/// What a step or a run leaves behind in the spare list is no part of a site.
#[test]
fn a_site_that_moved_equals_its_sheet_read_back() {
    let mut site = six_cells();
    let start = site.clone();
    site.step().unwrap();
    assert_ne!(site, start);
    assert_eq!(Site::read_sheet(&site.write_sheet()).as_ref(), Ok(&site));
    assert_eq!(site.run().reason, None);
    assert_eq!(Site::read_sheet(&site.write_sheet()).as_ref(), Ok(&site));
    // each of the three parts counts
    let (card, ground, state) = (site.card(), site.ground().to_vec(), site.state().to_vec());
    assert_eq!(Site::new(card, ground.clone(), state.clone()).as_ref(), Ok(&site));
    assert_ne!(Site::new(Card { steps: 6, ..card }, ground.clone(), state.clone()).as_ref(), Ok(&site));
    assert_ne!(Site::new(card, vec![1; 6], state).as_ref(), Ok(&site));
    assert_ne!(Site::new(card, ground, start.state().to_vec()).as_ref(), Ok(&site));
}

#[test]
fn a_run_in_slices_ends_as_a_whole_run() {
    let (mut stopped, mut finished) = (0, 0);
    trials("slices", 1_500, |rng| {
        let start = wild::good(rng);
        let card = Card { steps: rng.below(60) as u32, ..start.card };
        let mut whole = Site::new(card, start.ground, start.state).unwrap();
        let mut sliced = whole.clone();
        let slice = rng.between(1, 20) as u32;
        let tally = whole.run();
        let mut looks = 0;
        let joined = sliced.run_in_slices(slice, |site, so_far| {
            looks += 1;
            assert_eq!(so_far.steps, (looks * slice).min(card.steps));
            assert!(so_far.reason.is_none() && so_far.top >= *site.heights().iter().max().unwrap());
            ControlFlow::Continue(())
        });
        assert_eq!(joined, tally);
        assert_eq!(sliced, whole);
        stopped += u32::from(tally.reason.is_some() && tally.steps > 0);
        finished += u32::from(tally.reason.is_none() && tally.steps > slice);
    });
    println!("slices: {stopped} runs were stopped on their way, {finished} did more than a slice and finished");
    assert!(single() || (stopped >= 100 && finished >= 100));
}

#[test]
fn a_look_can_break_a_run_off() {
    let card = Card { columns: 2, rows: 1, dx: 1_000_000, dy: 1_000_000, dt: 100, steps: 10_000 };
    let mut site = Site::still(card, vec![0, 0], &[7, 7]).unwrap();
    let tally =
        site.run_in_slices(3, |_, so_far| if so_far.steps < 9 { ControlFlow::Continue(()) } else { ControlFlow::Break(()) });
    assert_eq!(tally, Tally { steps: 9, reason: None, top: 7, added: 0, taken: 0 });
}

#[test]
fn sheets_and_searches_of_a_site() {
    trials("site sheets", 500, |rng| {
        let start = wild::good(rng);
        let site = Site::new(start.card, start.ground, start.state).unwrap();
        let sheet = site.write_sheet();
        assert_eq!(sheet.len(), site.card().sheet_size());
        assert_eq!(Site::read_sheet(&sheet).as_ref(), Ok(&site));
        let width = i64::from(site.card().columns) * i64::from(site.card().dx);
        let chambers = [Chamber { x: width, y: 0 }, Chamber { x: 0, y: 0 }];
        let window = Window { west: 0.0, south: 0.0, east: width as f64, north: 0.0 };
        let places = site.search(&chambers, window, 0);
        assert_eq!(places, Ok(vec![0, 1]));
        assert_eq!(site.search_lists(&[width, 0], &[0, 0], window, 0), places);
        assert_eq!(site.search_lists(&[width, 0], &[0], window, 0), Err(Refusal::Length));
    });
}

#[test]
fn bytes_that_are_no_sheet() {
    for length in 0..=70 {
        let mut bytes = vec![255; length];
        assert_eq!(Site::read_sheet(&bytes), Err(Refusal::Sheet));
        if length > 4 {
            bytes[..4].copy_from_slice(&(length as u32).to_be_bytes());
            bytes[4] = 1;
            let refusal = if length < 19 { Refusal::Sheet } else { Refusal::Card };
            assert_eq!(Site::read_sheet(&bytes), Err(refusal));
        }
    }
}

#[test]
fn room_is_told() {
    let card = Card { columns: 2, rows: 1, dx: 1_000_000, dy: 1_000_000, dt: 100, steps: 0 };
    let state = [5, 6, 0, 0, 0, 0, 0, 0, 0];
    assert_eq!(calls::write_sheet(card, &[0, 0], &state, &mut [0; 62]), Err(Refusal::Room { needed: 63 }));
    let chambers = [Chamber::default(); 3];
    let found = calls::search(card, &[0, 0], &state, &chambers, Window::default(), 0, &mut [0; 2]);
    assert_eq!(found, Err(Refusal::Room { needed: 3 }));
}
