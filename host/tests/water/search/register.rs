//! The register: a chamber's cell, ranges of chambers and depths, how many chambers, how much room.

use super::{ask, below, site, ALL};
use crate::wild::Wild;
use water::raw::{Card, Chamber, Found, Window};

/// The cell of a chamber, by its height: on a line it belongs to the cell behind, on the outer edge to the last cell.
#[test]
fn the_cell_of_a_chamber() {
    let deepest = |x: i64, y: i64| {
        let chamber = [Chamber { x, y }];
        (1..=70).take_while(|&depth| ask(&site(), ALL, depth, &chamber, 1).0.count == 1).last().unwrap()
    };
    for (x, column) in [(0, 0), (999_999, 0), (1_000_000, 1), (1_999_999, 1), (2_000_000, 2), (2_999_999, 2), (3_000_000, 2)] {
        for (y, row) in [(0, 0), (1_999_999, 0), (2_000_000, 1), (3_999_999, 1), (4_000_000, 1)] {
            assert_eq!(deepest(x, y), 10 * (1 + column + 3 * row), "chamber at {x}, {y}");
        }
    }
}

#[test]
fn chambers_and_depths_on_both_sides_of_their_ranges() {
    let number = |chamber: Chamber, depth: i32| ask(&site(), ALL, depth, &[Chamber { x: 5, y: 5 }, chamber], 2).0.number;
    for (wrong, right) in [(-1, 0), (3_000_001, 3_000_000), (i64::MIN, 1), (i64::MAX, 1)] {
        assert_eq!(number(Chamber { x: wrong, y: 7 }, 0), 3);
        assert_eq!(number(Chamber { x: right, y: 7 }, 0), 0);
    }
    for (wrong, right) in [(-1, 0), (4_000_001, 4_000_000), (i64::MIN, 1), (i64::MAX, 1)] {
        assert_eq!(number(Chamber { x: 7, y: wrong }, 0), 3);
        assert_eq!(number(Chamber { x: 7, y: right }, 0), 0);
    }
    for (wrong, right) in [(-1, 0), (50_000_001, 50_000_000), (i32::MIN, 1), (i32::MAX, 1)] {
        assert_eq!(number(Chamber { x: 7, y: 7 }, wrong), 3);
        assert_eq!(number(Chamber { x: 7, y: 7 }, right), 0);
    }
}

#[test]
fn how_many_chambers() {
    let row = |count: usize| -> Vec<Chamber> { (0..count as i64).map(|k| Chamber { x: 1_000 * k, y: 3_999 * k }).collect() };
    assert_eq!(ask(&site(), ALL, 0, &[], 3).0, Found { number: 0, count: 0 });
    assert_eq!(ask(&site(), ALL, 0, &[], 0).0, Found { number: 0, count: 0 });
    let (found, list) = ask(&site(), ALL, 0, &row(1_000), 1_000);
    assert_eq!(found, Found { number: 0, count: 1_000 });
    assert_eq!(list, (0..1_000).collect::<Vec<u32>>());
    assert_eq!(ask(&site(), ALL, 0, &row(1_001), 1_001).0, Found { number: 2, count: 0 });
    assert_eq!(ask(&site(), ALL, 0, &row(5_000), 5_000).0, Found { number: 2, count: 0 });
    // 2 before 3: a chamber out of range among too many
    let mut many = row(1_001);
    many[0].x = -1;
    assert_eq!(ask(&site(), ALL, 0, &many, 1_001).0.number, 2);
}

#[test]
fn room_to_the_last_place() {
    let chambers: Vec<Chamber> = (0..40).map(|k| Chamber { x: 75_000 * k, y: 0 }).collect();
    // the second and third columns of the first row
    let needed = ask(&site(), ALL, 20, &chambers, 40).0.count;
    assert_eq!(needed, 26);
    for room in [0, 1, 24, 25] {
        assert_eq!(ask(&site(), ALL, 20, &chambers, room).0, Found { number: 8, count: 26 });
    }
    for room in [26, 27, 40, 100] {
        assert_eq!(ask(&site(), ALL, 20, &chambers, room).0, Found { number: 0, count: 26 });
    }
    // nothing listed needs no room
    assert_eq!(ask(&site(), ALL, 61, &chambers, 0).0, Found { number: 0, count: 0 });
}

/// Heights decide, and not the centimetres of a text: 14,999 and 15,000 read "1 cm" and "2 cm".
#[test]
fn kept_heights_decide() {
    let mut site = site();
    site.state[..2].copy_from_slice(&[14_999, 15_000]);
    let chambers = [Chamber { x: 1, y: 1 }, Chamber { x: 1_000_001, y: 1 }];
    for (depth, places) in [(14_998, vec![0, 1]), (14_999, vec![0, 1]), (15_000, vec![1]), (15_001, vec![])] {
        let (found, list) = ask(&site, ALL, depth, &chambers, 2);
        assert_eq!(list[..found.count as usize], places[..]);
    }
}

/// The widest site: places up to 2,560,000,000, beyond what 32 bits hold with a sign.
#[test]
fn the_widest_site() {
    let card = Card { columns: 128, rows: 128, dx: 20_000_000, dy: 20_000_000, dt: 1, steps: 0 };
    let mut site = Wild::empty(card);
    for (k, height) in site.state[..128 * 128].iter_mut().enumerate() {
        *height = k as i32;
    }
    let end = 2_560_000_000;
    let window = Window { west: 0.0, south: 0.0, east: end as f64, north: end as f64 };
    let far = [Chamber { x: end, y: end }, Chamber { x: end - 1, y: 0 }, Chamber { x: 2_147_483_648, y: 2_147_483_648 }];
    assert_eq!(ask(&site, window, 16_383, &far, 3).0.count, 1);
    assert_eq!(ask(&site, window, 127, &far, 3).0.count, 3);
    assert_eq!(ask(&site, Window { east: below(end as f64), ..window }, 0, &far, 3).0.count, 2);
    assert_eq!(ask(&site, window, 0, &[Chamber { x: end + 1, y: 0 }], 3).0.number, 3);
}
