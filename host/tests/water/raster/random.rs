//! Random rasters: read as they are, changed in every way, written, and read back.

use super::{hurt_text, Survey};
use crate::given::Given;
use crate::lent::hurt_length;
use crate::rng::Rng;
use crate::trials::{single, trials};
use crate::{library, wild};
use water::raw::{Card, Raster, Wrote};

/// A list of as many words as the raster has cells, or would have if it were in range.
fn lent(rng: &mut Rng, survey: &Survey) -> Vec<i32> {
    let length = survey.columns.min(129) * survey.rows.min(129);
    (0..length).map(|_| rng.next() as i32).collect()
}

/// Texts of which most were changed, in one way or in two.
#[test]
fn random_texts_read() {
    let (mut given, mut good, mut changed) = (Given::default(), 0, 0);
    trials("raster", 100_000, |rng| {
        let mut survey = Survey::good(rng);
        if rng.percent(25) {
            survey.hurt(rng);
        }
        let mut text = survey.text(rng);
        let changes = rng.pick(&[0, 0, 1, 1, 1, 2]);
        for _ in 0..changes {
            hurt_text(rng, &mut text);
        }
        let mut ground = lent(rng, &survey);
        if rng.percent(12) {
            hurt_length(rng, &mut ground);
        }
        let number = library::read_raster(rng, &text, &mut ground).number;
        given.count(number);
        *(if changes == 0 { &mut good } else { &mut changed }) += u64::from(number == 0);
    });
    given.assert_often("raster", &[0, 1, 2, 3, 10], 30);
    println!("raster: {good} texts read as they were made, {changed} though they were changed");
    assert!(single() || (good > 15_000 && changed > 5_000));
}

/// What was meant is what is read: the numbers that a text was spelled from, at their places.
#[test]
fn random_rasters_read() {
    trials("raster as meant", 10_000, |rng| {
        let survey = Survey::good(rng);
        let text = survey.text(rng);
        let mut ground = lent(rng, &survey);
        let answer = library::read_raster(rng, &text, &mut ground);
        let (columns, rows) = (survey.columns as u32, survey.rows as u32);
        assert_eq!(answer, Raster { number: 0, columns, rows, side: survey.side as u32 });
        for (k, &level) in ground.iter().enumerate() {
            let (column, row) = (k % survey.columns, k / survey.columns);
            let from_north = survey.rows - 1 - row;
            assert_eq!(i64::from(level), survey.values[from_north * survey.columns + column]);
        }
    });
}

/// Bytes without sense, some of them digits and points alone, some behind a head that has one.
#[test]
fn bytes_without_sense() {
    let mut given = Given::default();
    trials("raster bytes", 20_000, |rng| {
        let mut text = if rng.percent(70) { b"ncols 2 nrows 1 xllcorner 0 yllcorner 0 cellsize 1 ".to_vec() } else { vec![] };
        let kind = rng.below(3);
        for _ in 0..rng.below(12) {
            text.push(match kind {
                0 => rng.next() as u8,
                1 => rng.pick(b"0123456789.- "),
                _ => rng.pick(b"12 \n"),
            });
        }
        let length = rng.pick(&[2, 2, 2, 0, 3]);
        given.count(library::read_raster(rng, &text, &mut vec![5; length]).number);
    });
    given.assert_often("raster bytes", &[0, 2, 3, 10], 100);
}

/// Sites with equal sides and others, hurt in a third of the cases.
#[test]
fn random_sites_written() {
    let mut given = Given::default();
    trials("raster written", 20_000, |rng| {
        let mut site = wild::any(rng);
        if rng.percent(90) {
            site.card.dy = site.card.dx;
        }
        let right = wild::bounded(&site.card).raster_room();
        let room = match rng.below(8) {
            0 => right - rng.below(right as u64 / 3) as usize,
            1 => rng.between(0, right as i64) as usize,
            2 => right + 1 + rng.below(30) as usize,
            _ => right,
        };
        let mut text: Vec<u8> = (0..room).map(|_| rng.next() as u8).collect();
        given.count(library::write_raster(rng, site.card, &site.ground, &mut text).number);
    });
    given.assert_often("raster written", &[0, 1, 2, 3, 8], 40);
}

/// What is written reads back as the same ground, columns, rows and side, and is then written as the same bytes.
#[test]
fn random_sites_there_and_back() {
    trials("raster there and back", 10_000, |rng| {
        let survey = Survey::good(rng);
        let (columns, rows, side) = (survey.columns as u32, survey.rows as u32, survey.side as u32);
        let card = Card { columns, rows, dx: side, dy: side, dt: rng.between(1, 1_000) as u32, steps: rng.below(10_001) as u32 };
        let ground: Vec<i32> = survey.values.iter().map(|&value| value as i32).collect();
        let mut text = vec![0xee; card.raster_room()];
        let wrote = library::write_raster(rng, card, &ground, &mut text);
        assert_eq!(wrote.number, 0);
        text.truncate(wrote.size as usize);
        let mut back = lent(rng, &survey);
        assert_eq!(library::read_raster(rng, &text, &mut back), Raster { number: 0, columns, rows, side });
        assert_eq!(back, ground);
        let mut again = vec![0xee; text.len()];
        assert_eq!(library::write_raster(rng, card, &back, &mut again), Wrote { number: 0, size: text.len() as u32 });
        assert_eq!(again, text);
    });
}

/// Read from any spelling, written and read: the ground stays.
#[test]
fn random_rasters_read_and_written() {
    trials("raster read and written", 5_000, |rng| {
        let survey = Survey::good(rng);
        let (text, mut ground) = (survey.text(rng), lent(rng, &survey));
        let answer = library::read_raster(rng, &text, &mut ground);
        assert_eq!(answer.number, 0);
        let Raster { columns, rows, side, .. } = answer;
        let card = Card { columns, rows, dx: side, dy: side, dt: 1, steps: 0 };
        let mut text = vec![0xee; card.raster_room()];
        let wrote = library::write_raster(rng, card, &ground, &mut text);
        let mut back = lent(rng, &survey);
        assert_eq!(library::read_raster(rng, &text[..wrote.size as usize], &mut back), answer);
        assert_eq!(back, ground);
    });
}
