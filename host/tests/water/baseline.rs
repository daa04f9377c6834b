//! The benchmark's plain Rust held to the model, so that the ratio compares the same work, refusals and all; and its sites to what they
//! are said to be.

#[path = "../../src/bin/bench/plain/mod.rs"]
mod plain;

// the benchmark alone asks for chambers and pumps
#[allow(dead_code)]
#[path = "../../src/bin/bench/sites.rs"]
mod sites;

use crate::given::Given;
use crate::lent::room;
use crate::model;
use crate::raster::{hurt_text, Survey};
use crate::staff::UNITS;
use crate::trials::{single, trials};
use crate::wild::{self, Wild};
use sites::Water;
use water::raw::{Chamber, Window, WATER_METRES};
use water::{Reading, Refusal};

#[test]
fn steps_and_runs() {
    let (mut given, mut banks) = (Given::default(), 0);
    let (mut dividing, mut skipping) = (plain::Plain::<false>::new(), plain::Plain::<true>::new());
    trials("plain steps", 6_000, |rng| {
        let site = wild::any(rng);
        // in half of the cases no pumps
        let pumps = if rng.percent(50) { vec![] } else { wild::any_pumps(rng, &site) };
        let mut next = room(rng, site.state.len());
        let (mut skipped, mut expected) = (next.clone(), next.clone());
        let (mut textbook, mut textbook_skipped) = (next.clone(), next.clone());
        let number = model::step(site.card, &site.ground, &site.state, &pumps, &mut expected);
        assert_eq!(dividing.step(site.card, &site.ground, &site.state, &pumps, &mut next), number);
        assert_eq!(skipping.step(site.card, &site.ground, &site.state, &pumps, &mut skipped), number);
        assert!(next == expected && skipped == expected);
        assert_eq!(dividing.step_textbook(site.card, &site.ground, &site.state, &pumps, &mut textbook), number);
        assert_eq!(skipping.step_textbook(site.card, &site.ground, &site.state, &pumps, &mut textbook_skipped), number);
        assert!(textbook == expected && textbook_skipped == expected, "by the textbook engine");
        given.count(number);
        banks += if number == 0 { site.banks_in(&next) } else { 0 };
        let lists = (site.state.clone(), room(rng, site.state.len()));
        let (mut divided, mut skipped, mut expected) = (lists.clone(), lists.clone(), lists);
        let tally = model::run(site.card, &site.ground, &mut expected.0, &pumps, &mut expected.1);
        assert_eq!(dividing.run(site.card, &site.ground, &mut divided.0, &pumps, &mut divided.1), tally);
        assert_eq!(skipping.run(site.card, &site.ground, &mut skipped.0, &pumps, &mut skipped.1), tally);
        assert!(divided == expected && skipped == expected);
    });
    given.assert_often("plain steps", &[0, 1, 2, 3, 4, 5, 7], 60);
    println!("plain steps: {banks} faces had a dry bank beside water");
    assert!(single() || banks > 2_000);
}

#[test]
fn measured_sites() {
    for size in [8, 16, 128] {
        for water in Water::ALL {
            let sites::Measured { card, ground, state } = sites::site(size, water);
            let site = Wild { card, ground, state };
            let still = !matches!(water, Water::Puddle | Water::Moving);
            assert_eq!(model::still_water(&site.site()), still, "{}", water.name());
            let (banks, faces) = (site.banks_in(&site.state), site.inner_faces().len());
            // of 8 cells in a row 3 faces of 7, of 128 63 of 127
            let half = (2 * banks).abs_diff(faces) * 5 < faces;
            assert_eq!(half, matches!(water, Water::Pond), "{} of {size}: {banks} dry banks on {faces} faces", water.name());
        }
    }
}

#[test]
fn searches_and_sheets() {
    let (mut searched, mut written, mut read) = (Given::default(), Given::default(), Given::default());
    trials("plain searches", 3_000, |rng| {
        let site = wild::any(rng);
        let width = i64::from(site.card.dx.min(20_000_001)) * i64::from(site.card.columns.min(129));
        let chambers: Vec<Chamber> =
            (0..rng.below(20)).map(|_| Chamber { x: rng.between(0, width), y: rng.between(-1, 400_000) }).collect();
        let edge = |rng: &mut crate::rng::Rng| rng.between(-1, width) as f64 + rng.pick(&[0.0, 0.5, f64::NAN]);
        let window = Window { west: 0.0, south: -1.0, east: edge(rng), north: 1e9 };
        let (depth, places) = (rng.pick(&[0, 1, 1_000_000, -1]), rng.below(20) as usize);
        let (xs, ys): (Vec<i64>, Vec<i64>) = chambers.iter().map(|chamber| (chamber.x, chamber.y)).unzip();
        let (mut found, mut lists, mut expected) = (vec![7; places], vec![7; places], vec![7; places]);
        let answer = model::search(site.card, &site.ground, &site.state, &chambers, window, depth, &mut expected);
        assert_eq!(plain::search(site.card, &site.ground, &site.state, &chambers, window, depth, &mut found), answer);
        assert_eq!(plain::search_lists(site.card, &site.ground, &site.state, &xs, &ys, window, depth, &mut lists), answer);
        assert!(found == expected && lists == expected);
        searched.count(answer.number);

        let bytes = rng.between(0, 3_000) as usize;
        let (mut sheet, mut expected) = (vec![7; bytes], vec![7; bytes]);
        let wrote = plain::write_sheet(site.card, &site.ground, &site.state, &mut sheet);
        assert_eq!(wrote, model::write_sheet(site.card, &site.ground, &site.state, &mut expected));
        assert!(sheet == expected);
        written.count(wrote.number);
        sheet.truncate(wrote.size as usize);
        if !sheet.is_empty() && rng.percent(50) {
            let place = rng.below(sheet.len() as u64) as usize;
            sheet[place] ^= 1 << rng.below(8);
        }
        let lists = (room(rng, site.ground.len()), room(rng, site.state.len()));
        let (mut ours, mut expected) = (lists.clone(), lists);
        let heard = plain::read_sheet(&sheet, &mut ours.0, &mut ours.1);
        assert_eq!(heard, model::read_sheet(&sheet, &mut expected.0, &mut expected.1));
        assert!(ours == expected);
        read.count(heard.number);
    });
    searched.assert_often("plain searches", &[0, 1, 2, 3, 8], 60);
    written.assert_often("plain sheets written", &[0, 1, 2, 3, 8], 60);
    read.assert_often("plain sheets read", &[0, 1, 2, 3, 9], 400);
}

#[test]
fn rasters() {
    let (mut read, mut written) = (Given::default(), Given::default());
    trials("plain rasters", 20_000, |rng| {
        let mut survey = Survey::good(rng);
        if rng.percent(25) {
            survey.hurt(rng);
        }
        let mut text = survey.text(rng);
        for _ in 0..rng.pick(&[0, 0, 1, 2]) {
            hurt_text(rng, &mut text);
        }
        let mut ground = room(rng, survey.columns * survey.rows);
        let mut expected = ground.clone();
        let answer = model::read_raster(&text, &mut expected);
        assert_eq!(plain::read_raster(&text, &mut ground), answer, "{}", String::from_utf8_lossy(&text));
        assert!(ground == expected);
        read.count(answer.number);

        let mut site = wild::any(rng);
        if rng.percent(90) {
            site.card.dy = site.card.dx;
        }
        let bytes = rng.between(0, 2_000) as usize;
        let (mut text, mut expected) = (vec![7; bytes], vec![7; bytes]);
        let wrote = model::write_raster(site.card, &site.ground, &mut expected);
        assert_eq!(plain::write_raster(site.card, &site.ground, &mut text), wrote);
        assert!(text == expected);
        written.count(wrote.number);
    });
    read.assert_often("plain rasters read", &[0, 1, 2, 3, 10], 60);
    written.assert_often("plain rasters written", &[0, 1, 2, 3, 8], 60);
}

#[test]
fn staff_readings() {
    assert_eq!(plain::staff(Reading::Nothing), Ok(None));
    let mut given = Given::default();
    trials("plain staff", 10_000, |rng| {
        let unit = &UNITS[rng.below(2) as usize];
        let value = unit.any(rng);
        let reading = if unit.kind == WATER_METRES { Reading::Metres(value) } else { Reading::Feet(value) };
        let expected = model::staff(unit.kind, value);
        given.count(expected.number);
        let answer = if expected.number == 0 { Ok(Some(expected.height)) } else { Err(Refusal::Value) };
        assert_eq!(plain::staff(reading), answer, "{reading:?}");
    });
    given.assert_often("plain staff", &[0, 3], 5);
}

/// Half of them metres and half feet, each all over the range, a few above it.
#[test]
fn measured_readings() {
    let readings = sites::readings();
    let (metres, feet): (Vec<Reading>, Vec<Reading>) = readings.iter().partition(|reading| matches!(reading, Reading::Metres(_)));
    for readings in [metres, feet] {
        let heights: Vec<i32> = readings.iter().filter_map(|&reading| plain::staff(reading).ok().flatten()).collect();
        assert!(readings.len() == 500 && (450..490).contains(&heights.len()), "{} of {}", heights.len(), readings.len());
        for metre in 0..50 {
            assert!(heights.iter().any(|height| height / 1_000_000 == metre), "none is {metre} m and a part of one");
        }
    }
}
