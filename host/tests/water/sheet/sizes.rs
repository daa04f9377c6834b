//! Sheets of the smallest and the largest size, and lists of other sizes than the sheet's.

use super::{filled, read, sheet_of};
use crate::library;
use crate::rng::Rng;
use water::raw::{Card, Heard};

#[test]
fn the_smallest_and_the_largest() {
    for (columns, rows, size) in [(1, 1, 43), (1, 128, 2_583), (128, 1, 2_583), (128, 128, 263_187), (2, 1, 63), (32, 32, 16_659)]
    {
        let rng = &mut Rng::new(1);
        let site = filled(columns, rows);
        let sheet = sheet_of(rng, &site);
        assert_eq!(sheet.len(), size);
        let (heard, back) = read(rng, &sheet, columns, rows);
        assert_eq!(heard, Heard { number: 0, card: site.card });
        assert_eq!(back, site);
    }
}

#[test]
fn lists_of_the_wrong_length() {
    let rng = &mut Rng::new(9);
    let site = filled(3, 2);
    let sheet = sheet_of(rng, &site);
    for ground in [0, 1, 5, 6, 7, 12] {
        for state in [0, 22, 23, 24, 46] {
            let heard = library::read_sheet(rng, &sheet, &mut vec![1; ground], &mut vec![2; state]);
            let right = ground == 6 && state == 23;
            assert_eq!(heard.number, if right { 0 } else { 2 });
        }
    }
}

/// A sheet that is refused by its very last word, a wall that is not still: both lists are as lent, small or large.
#[test]
fn refused_by_the_last_word() {
    for (columns, rows) in [(1, 1), (3, 2), (32, 32), (15, 68), (128, 128)] {
        let rng = &mut Rng::new(u64::from(columns));
        let mut sheet = sheet_of(rng, &filled(columns, rows));
        *sheet.last_mut().unwrap() = 1;
        assert_eq!(read(rng, &sheet, columns, rows).0, Heard { number: 3, card: Card::default() });
    }
}

/// Small sheets for large lists, and the other way round.
#[test]
fn lists_of_another_site() {
    let rng = &mut Rng::new(12);
    let refused = Heard { number: 2, card: Card::default() };
    let small = sheet_of(rng, &filled(3, 2));
    for (columns, rows) in [(32, 32), (15, 68), (128, 128)] {
        assert_eq!(read(rng, &small, columns, rows).0, refused);
        let large = sheet_of(rng, &filled(columns, rows));
        assert_eq!(read(rng, &large, 3, 2).0, refused);
    }
}
