//! Refusals in their order: the raster reader looks for 10 first, then 1, 2 and 3; the writer for 1, 2, 3 and 8.

use super::{read, with, COLUMNS, FIRST, NO_DATA, ROWS, SIDE, SOUTH, WEST};
use crate::library;
use crate::rng::Rng;
use water::raw::Card;

/// Each subset of what can be wrong, in several ways: the first in the order is told.
#[test]
fn the_reader_looks_for_ten_first() {
    // that the text is no raster, wherever that is seen
    let tens =
        [(0, "cols"), (COLUMNS, "3.0"), (ROWS, "0000000000002"), (WEST, "+5"), (SOUTH, "1e5"), (SIDE, "1."), (NO_DATA, "none")];
    let more = [(FIRST, "2..5"), (FIRST + 5, "6.0000001"), (FIRST + 5, "6 7"), (FIRST + 5, ""), (8, "NODATA_value")];
    let tens: Vec<Option<(usize, &str)>> = [None].into_iter().chain(tens.into_iter().chain(more).map(Some)).collect();
    for ten in tens {
        for one in [None, Some("0"), Some("20.000001"), Some("-1")] {
            for length in [6, 0, 5, 7] {
                for three in [None, Some((FIRST, "50.000001")), Some((FIRST + 4, "-9999.0")), Some((FIRST + 3, "-51"))] {
                    let mut changes = vec![];
                    changes.extend(one.map(|side| (SIDE, side)));
                    changes.extend(three);
                    changes.extend(ten);
                    let number = match (ten, one, length, three) {
                        (Some(_), _, _, _) => 10,
                        (None, Some(_), _, _) => 1,
                        (None, None, 6, None) => 0,
                        (None, None, 6, Some(_)) => 3,
                        (None, None, _, _) => 2,
                    };
                    assert_eq!(read(&with(&changes), length).0.number, number, "{changes:?}, {length} words");
                }
            }
        }
    }
}

/// A size out of range before a wrong length and before values that are out of range, which are counted all the same.
#[test]
fn a_size_before_its_values() {
    for (columns, rows) in [(129, 1), (1, 129)] {
        for value in ["2", "51", "-9999"] {
            for length in [129, 128, 0] {
                let head = format!("ncols {columns} nrows {rows} xllcorner 0 yllcorner 0 cellsize 1 NODATA_value -9999 ");
                assert_eq!(read((head.clone() + &format!("{value} ").repeat(129)).as_bytes(), length).0.number, 1);
                assert_eq!(read((head.clone() + &format!("{value} ").repeat(128)).as_bytes(), length).0.number, 10);
                assert_eq!(read((head + &format!("{value} ").repeat(128) + "x").as_bytes(), length).0.number, 10);
            }
        }
    }
}

#[test]
fn the_writer_looks_for_one_first() {
    let good = Card { columns: 3, rows: 2, dx: 1_000_000, dy: 1_000_000, dt: 100, steps: 2 };
    let bad_cards = [
        Card { columns: 0, ..good },
        Card { rows: 129, ..good },
        Card { dx: 99_999, ..good },
        Card { dy: 20_000_001, ..good },
        Card { dt: 0, ..good },
        Card { steps: 10_001, ..good },
    ];
    let oblong = Card { dy: 1_000_001, ..good };
    for (card, bad, sides_differ) in
        bad_cards.into_iter().map(|card| (card, true, false)).chain([(good, false, false), (oblong, false, true)])
    {
        for length in [6, 5, 7, 0] {
            for level in [0, 50_000_001, -50_000_001] {
                for room in [400, 10, 0] {
                    let mut ground = vec![0; length];
                    if let Some(last) = ground.last_mut() {
                        *last = level;
                    }
                    let number = if bad {
                        1
                    } else if length != 6 || sides_differ {
                        2
                    } else if level != 0 {
                        3
                    } else if room < 400 {
                        8
                    } else {
                        0
                    };
                    let wrote = library::write_raster(&mut Rng::new(room as u64), card, &ground, &mut vec![0xee; room]);
                    assert_eq!(
                        (wrote.number, wrote.size > 0),
                        (number, number == 0),
                        "{card:?}, {length} words, {level}, {room}"
                    );
                }
            }
        }
    }
}
