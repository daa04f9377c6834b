//! The raster that is written: its bytes by hand, its room, each range of the card and of the ground, and that it reads back.

use super::read;
use crate::library;
use crate::rng::Rng;
use water::raw::{Card, Raster, Wrote, WATER_RASTER_BYTES};

const CARD: Card = Card { columns: 3, rows: 2, dx: 1_000_000, dy: 1_000_000, dt: 100, steps: 2 };

/// The number and the size, and what stands in a room of so many bytes.
fn write(card: Card, ground: &[i32], room: usize) -> (Wrote, Vec<u8>) {
    let mut text = vec![0xee; room];
    let wrote = library::write_raster(&mut Rng::new(room as u64), card, ground, &mut text);
    (wrote, text)
}

fn number(card: Card, ground: &[i32]) -> u32 {
    write(card, ground, card.raster_room().min(WATER_RASTER_BYTES)).0.number
}

/// A text that was written into just as much room as it takes.
fn written(card: Card, ground: &[i32]) -> Vec<u8> {
    let (wrote, mut text) = write(card, ground, card.raster_room());
    assert_eq!(wrote.number, 0);
    text.truncate(wrote.size as usize);
    assert_eq!(write(card, ground, text.len()), (wrote, text.clone()));
    text
}

fn with_side(side: u32) -> Card {
    Card { dx: side, dy: side, ..CARD }
}

#[test]
fn by_hand() {
    let ground = [0, -1, 1, -500_000, 12_345_678, -50_000_000];
    let text = "ncols 3\nnrows 2\nxllcorner 0\nyllcorner 0\ncellsize 1.000000\n\
                -0.500000 12.345678 -50.000000\n0.000000 -0.000001 0.000001\n";
    assert_eq!(written(CARD, &ground), text.as_bytes());
    let one = Card { columns: 1, rows: 1, dx: 100_000, dy: 100_000, dt: 1, steps: 0 };
    let text = "ncols 1\nnrows 1\nxllcorner 0\nyllcorner 0\ncellsize 0.100000\n-9.999999\n";
    assert_eq!(written(one, &[-9_999_999]), text.as_bytes());
}

/// Each number of digits in columns, rows, cellsize and values.
#[test]
fn every_number_of_digits() {
    for (columns, rows) in [(1, 1), (9, 10), (10, 9), (99, 1), (1, 99), (100, 1), (1, 100), (128, 2)] {
        for side in [100_000, 999_999, 1_000_000, 9_999_999, 10_000_000, 19_999_999, 20_000_000] {
            let card = Card { columns, rows, ..with_side(side) };
            let levels = [0, 1, 9, 10, 99_999, 100_000, 999_999, 1_000_000, 9_999_999, 10_000_000, 49_999_999, 50_000_000];
            let ground: Vec<i32> =
                (0..card.cells()).map(|k| if k % 2 == 0 { levels[k % 12] } else { -levels[k * 5 % 12] }).collect();
            let text = written(card, &ground);
            let (answer, back) = read(&text, ground.len());
            assert_eq!((answer, back), (Raster { number: 0, columns, rows, side }, ground));
        }
    }
}

/// Every room up to its size is too short, and more is left as it was.
#[test]
fn rooms() {
    let ground = [0, -1, 1, -500_000, 12_345_678, -50_000_000];
    let size = written(CARD, &ground).len();
    for room in 0..=size + 20 {
        let (wrote, text) = write(CARD, &ground, room);
        if room < size {
            assert_eq!(wrote, Wrote { number: 8, size: 0 });
            assert!(text.iter().all(|&byte| byte == 0xee), "{room} bytes");
        } else {
            assert_eq!(wrote, Wrote { number: 0, size: size as u32 });
            assert!(text[size..].iter().all(|&byte| byte == 0xee), "{room} bytes");
        }
    }
}

/// The longest text there is has as many bytes as the header says, and the shortest is this one.
#[test]
fn the_longest_and_the_shortest() {
    let largest = Card { columns: 128, rows: 128, dx: 20_000_000, dy: 20_000_000, dt: 1_000, steps: 10_000 };
    let deepest = vec![-50_000_000; 16_384];
    assert_eq!(written(largest, &deepest).len(), WATER_RASTER_BYTES);
    assert_eq!(largest.raster_room(), WATER_RASTER_BYTES);
    assert_eq!(write(largest, &deepest, WATER_RASTER_BYTES - 1).0, Wrote { number: 8, size: 0 });
    let (answer, back) = read(&written(largest, &deepest), 16_384);
    assert_eq!((answer, back), (Raster { number: 0, columns: 128, rows: 128, side: 20_000_000 }, deepest));
    let smallest = Card { columns: 1, rows: 1, ..with_side(100_000) };
    assert_eq!(written(smallest, &[0]).len(), 67);
}

/// The whole card is looked at, though a raster has no times.
#[test]
fn each_range_of_the_card() {
    for (size, fits) in [(0, false), (1, true), (128, true), (129, false), (257, false), (u32::MAX, false), (1 << 31, false)] {
        for card in [Card { columns: size, rows: 1, ..CARD }, Card { columns: 1, rows: size, ..CARD }] {
            let ground = vec![0; if fits { size as usize } else { 3 }];
            assert_eq!(number(card, &ground), if fits { 0 } else { 1 }, "{card:?}");
        }
    }
    let ground = [0; 6];
    for (side, fits) in [(0, false), (99_999, false), (100_000, true), (20_000_000, true), (20_000_001, false), (u32::MAX, false)]
    {
        assert_eq!(number(with_side(side), &ground), if fits { 0 } else { 1 }, "{side}");
        if !fits {
            assert_eq!(number(Card { dx: side, ..CARD }, &ground), 1, "dx {side}");
            assert_eq!(number(Card { dy: side, ..CARD }, &ground), 1, "dy {side}");
        }
    }
    for (dt, fits) in [(0, false), (1, true), (1_000, true), (1_001, false), (u32::MAX, false)] {
        assert_eq!(number(Card { dt, ..CARD }, &ground), if fits { 0 } else { 1 }, "dt {dt}");
    }
    for (steps, fits) in [(0, true), (10_000, true), (10_001, false), (u32::MAX, false)] {
        assert_eq!(number(Card { steps, ..CARD }, &ground), if fits { 0 } else { 1 }, "steps {steps}");
    }
}

/// Sides that differ by as little as there is, or by all there is.
#[test]
fn sides_that_differ() {
    for (dx, dy) in
        [(1_000_000, 1_000_001), (1_000_001, 1_000_000), (100_000, 20_000_000), (20_000_000, 100_000), (100_000, 100_256)]
    {
        assert_eq!(number(Card { dx, dy, ..CARD }, &[0; 6]), 2, "{dx} and {dy}");
    }
}

#[test]
fn lengths_and_levels() {
    for length in 0..=20 {
        assert_eq!(number(CARD, &vec![0; length]), if length == 6 { 0 } else { 2 }, "{length} words");
    }
    for place in 0..6 {
        for (level, fits) in [
            (50_000_000, true),
            (50_000_001, false),
            (-50_000_000, true),
            (-50_000_001, false),
            (i32::MAX, false),
            (i32::MIN, false),
        ] {
            let mut ground = [0; 6];
            ground[place] = level;
            assert_eq!(number(CARD, &ground), if fits { 0 } else { 3 }, "{level} at {place}");
        }
    }
}

/// A text that was written, read and written again is the same, byte for byte.
#[test]
fn there_and_back_and_there() {
    let text = written(with_side(250_000), &[-1, 0, 1, 50_000_000, -50_000_000, -999_999]);
    let (answer, ground) = read(&text, 6);
    assert_eq!(answer, Raster { number: 0, columns: 3, rows: 2, side: 250_000 });
    assert_eq!(written(with_side(answer.side), &ground), text);
}
