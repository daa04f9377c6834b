//! The wrapper's rasters: typed refusals, how long a list a text asks for, how much room is needed, and sites from rasters and back.

use super::{hurt_text, of_size, with, Survey, GROUND};
use crate::given::Given;
use crate::lent::hurt_length;
use crate::model;
use crate::trials::{single, trials};
use crate::wild;
use water::{calls, Card, Raster, Refusal, Site};

/// The number of an answer, 0 if it was not refused.
fn number<T>(answer: &Result<T, Refusal>) -> u32 {
    answer.as_ref().map_or_else(|refusal| refusal.number(), |_| 0)
}

#[test]
fn a_site_of_a_raster() {
    let site = Site::read_raster(&with(&[]), 40, 500).unwrap();
    assert_eq!(site.card(), Card { columns: 3, rows: 2, dx: 500_000, dy: 500_000, dt: 40, steps: 500 });
    assert_eq!(site.ground(), GROUND);
    assert!(site.state().iter().all(|&word| word == 0) && site.state().len() == site.card().state_length());
    for (dt, steps) in [(0, 0), (1_001, 0), (1, 10_001)] {
        assert_eq!(Site::read_raster(&with(&[]), dt, steps), Err(Refusal::Card));
        assert_eq!(Site::read_raster(b"", dt, steps), Err(Refusal::Raster), "the raster is read first");
    }
}

/// How long a list a text asks for: whatever is in range at its second and fourth word.
#[test]
fn lengths_that_are_asked_for() {
    for (columns, rows, length) in [
        ("1", "1", 1),
        ("128", "128", 16_384),
        ("000000000128", "1", 128),
        ("0", "5", 0),
        ("5", "0", 0),
        ("129", "1", 0),
        ("1", "129", 0),
        ("999999999999", "999999999999", 0),
        ("99999999999999999999999999999999", "1", 0),
        ("-3", "2", 0),
        ("3.0", "2", 0),
        ("\u{665}", "2", 0),
    ] {
        assert_eq!(Raster::ground_length(&of_size(columns, rows, 3)), length, "{columns} and {rows}");
    }
    for text in ["", " ", "ncols", "ncols 3", "ncols 3 nrows", "ncols\u{b}3 nrows 2"] {
        assert_eq!(Raster::ground_length(text.as_bytes()), 0, "{text:?}");
    }
    assert_eq!(Raster::ground_length(b"\xff 3 \xff 2"), 6);
    assert_eq!(Raster::ground_length(b"\r\n\tncols\t3\r\nnrows\r\r2"), 6);
}

/// A site is made from a text exactly where the library reads it into some list: the look for a length is never at fault.
#[test]
fn texts_as_the_model() {
    let mut given = Given::default();
    trials("wrapped raster", 20_000, |rng| {
        let mut survey = Survey::good(rng);
        if rng.percent(25) {
            survey.hurt(rng);
        }
        let mut text = survey.text(rng);
        for _ in 0..rng.pick(&[0, 0, 1, 2]) {
            hurt_text(rng, &mut text);
        }
        let made = Site::read_raster(&text, 100, 7);
        // the model, lent as many words as the wrapper lends
        let mut ground = vec![0; Raster::ground_length(&text)];
        let expected = model::read_raster(&text, &mut ground);
        assert_ne!(expected.number, 2, "a list of the right length was lent: {}", String::from_utf8_lossy(&text));
        assert_eq!(number(&made), expected.number);
        given.count(expected.number);
        if let Ok(site) = made {
            let card = site.card();
            assert_eq!(
                (card.columns, card.rows, card.dx, card.dy),
                (expected.columns, expected.rows, expected.side, expected.side)
            );
            assert_eq!((card.dt, card.steps), (100, 7));
            assert_eq!(site.ground(), ground);
            assert_eq!(Site::read_raster(&site.write_raster().unwrap(), 100, 7), Ok(site));
        }
    });
    given.assert_often("wrapped raster", &[0, 1, 3, 10], 30);
}

/// The calls on slices: the same numbers as the model, and the room that is needed.
#[test]
fn slices_as_the_model() {
    let (mut written, mut read) = (Given::default(), Given::default());
    trials("wrapped raster calls", 10_000, |rng| {
        let mut site = wild::any(rng);
        if rng.percent(80) {
            site.card.dy = site.card.dx;
        }
        let room = match rng.below(3) {
            0 => rng.between(0, 400) as usize,
            _ => wild::bounded(&site.card).raster_room(),
        };
        let (mut text, mut expected) = (vec![7; room], vec![7; room]);
        let wrote = model::write_raster(site.card, &site.ground, &mut expected);
        let answer = calls::write_raster(site.card, &site.ground, &mut text);
        written.count(wrote.number);
        assert_eq!(text, expected);
        match answer {
            Ok(size) => assert_eq!((wrote.number, wrote.size), (0, size as u32)),
            Err(Refusal::Room { needed }) => {
                assert_eq!(wrote.number, 8);
                let wrote = model::write_raster(site.card, &site.ground, &mut vec![0; needed]);
                assert_eq!((wrote.number, wrote.size), (0, needed as u32), "just as much room as is needed");
                assert!(needed <= site.card.raster_room());
            }
            Err(refusal) => assert_eq!(refusal.number(), wrote.number),
        }
        let text = &text[..wrote.size as usize];
        let mut ground = vec![-7; site.ground.len()];
        if rng.percent(20) {
            hurt_length(rng, &mut ground);
        }
        let mut expected = ground.clone();
        let right = model::read_raster(text, &mut expected);
        match calls::read_raster(text, &mut ground) {
            Ok(raster) => {
                assert_eq!((right.number, raster), (0, Raster { columns: right.columns, rows: right.rows, side: right.side }))
            }
            Err(refusal) => assert_eq!(refusal.number(), right.number),
        }
        read.count(right.number);
        assert_eq!(ground, expected);
    });
    written.assert_often("wrapped raster calls, written", &[0, 1, 2, 3, 8], 40);
    read.assert_often("wrapped raster calls, read", &[0, 2, 10], 40);
}

/// A site with sides that differ has no raster; all others come back, dry and still.
#[test]
fn sites_there_and_back() {
    let (mut equal, mut differ) = (0, 0);
    trials("wrapped raster sites", 2_000, |rng| {
        let mut start = wild::good(rng);
        if rng.percent(70) {
            start.card.dy = start.card.dx;
        }
        let card = start.card;
        let site = Site::new(card, start.ground.clone(), start.state).unwrap();
        if card.dx != card.dy {
            assert_eq!(site.write_raster(), Err(Refusal::Length));
            differ += 1;
            return;
        }
        let dry = Site::still(card, start.ground, &vec![0; card.cells()]).unwrap();
        assert_eq!(Site::read_raster(&site.write_raster().unwrap(), card.dt, card.steps), Ok(dry));
        equal += 1;
    });
    println!("wrapped raster sites: {equal} with equal sides, {differ} without");
    assert!(single() || (equal > 1_000 && differ > 300));
}

#[test]
fn the_card_of_a_raster() {
    let raster = Raster { columns: 3, rows: 2, side: 500_000 };
    assert_eq!(raster.card(40, 500), Card { columns: 3, rows: 2, dx: 500_000, dy: 500_000, dt: 40, steps: 500 });
}
