//! Sheets with every byte damaged and of every length, rooms of every length, refusals in their order.

use super::{filled, read, set_length_field, sheet_of};
use crate::given::Given;
use crate::rng::Rng;
use crate::{library, model};
use water::raw::{Card, Heard, Wrote};

/// Each byte of a good sheet set to each of its other 255 values; of larger sheets, each bit of each byte.
#[test]
fn each_byte_damaged() {
    let bits: Vec<u8> = (0..8).map(|bit| 1 << bit).collect();
    for (columns, rows, changes) in [(1, 1, (1..=255).collect()), (2, 2, bits.clone()), (3, 1, bits.clone()), (5, 4, bits)] {
        let rng = &mut Rng::new(7);
        let good = sheet_of(rng, &filled(columns, rows));
        let mut given = Given::default();
        for place in 0..good.len() {
            for change in &changes {
                let mut sheet = good.clone();
                sheet[place] ^= change;
                given.count(read(rng, &sheet, columns, rows).0.number);
            }
        }
        given.assert_often("a damaged byte", &[0, 1, 2, 3, 9], 1_000);
    }
}

/// Every truncation of a good sheet, with its length field as it was (9) and set to the bytes given (2, or 9 below 19 bytes).
#[test]
fn every_truncation() {
    for (columns, rows) in [(1, 1), (2, 1), (5, 4)] {
        let rng = &mut Rng::new(8);
        let good = sheet_of(rng, &filled(columns, rows));
        for length in 0..good.len() {
            let mut sheet = good[..length].to_vec();
            assert_eq!(read(rng, &sheet, columns, rows).0, Heard { number: 9, card: Card::default() });
            if length >= 4 {
                set_length_field(&mut sheet);
                let number = if length < 19 { 9 } else { 2 };
                assert_eq!(read(rng, &sheet, columns, rows).0, Heard { number, card: Card::default() });
            }
        }
        for more in 1..20 {
            let mut sheet = good.clone();
            sheet.resize(good.len() + more, 0);
            assert_eq!(read(rng, &sheet, columns, rows).0.number, 9);
            set_length_field(&mut sheet);
            assert_eq!(read(rng, &sheet, columns, rows).0.number, 2);
        }
    }
}

/// Refusals in their order: 9 before 1 before 2 before 3.
#[test]
fn the_reader_looks_for_nine_first() {
    let rng = &mut Rng::new(10);
    let mut sheet = sheet_of(rng, &filled(3, 2));
    // word 0, a height: out of range
    sheet[19 + 4 * 6..][..4].copy_from_slice(&(-1i32).to_be_bytes());
    assert_eq!(read(rng, &sheet, 3, 2).0.number, 3);
    assert_eq!(read(rng, &sheet, 2, 2).0.number, 2);
    sheet[15..17].copy_from_slice(&[0, 0]);
    assert_eq!(read(rng, &sheet, 2, 2).0.number, 1);
    sheet[4] = 2;
    assert_eq!(read(rng, &sheet, 2, 2).0.number, 9);
}

/// The writer's 8 comes after 1 to 3, and leaves the bytes as lent.
#[test]
fn the_writer_needs_its_room() {
    let rng = &mut Rng::new(11);
    let site = filled(2, 2);
    let size = model::sheet_size(&site.card);
    for room in 0..=size + 3 {
        let wrote = library::write_sheet(rng, site.card, &site.ground, &site.state, &mut vec![0xee; room]);
        let right = if room < size { Wrote { number: 8, size: 0 } } else { Wrote { number: 0, size: size as u32 } };
        assert_eq!(wrote, right);
    }
    let mut hurt = site.clone();
    hurt.state[0] = -1;
    assert_eq!(library::write_sheet(rng, hurt.card, &hurt.ground, &hurt.state, &mut Vec::new()).number, 3);
    hurt.ground.pop();
    assert_eq!(library::write_sheet(rng, hurt.card, &hurt.ground, &hurt.state, &mut Vec::new()).number, 2);
    hurt.card.dt = 0;
    assert_eq!(library::write_sheet(rng, hurt.card, &hurt.ground, &hurt.state, &mut Vec::new()).number, 1);
}
