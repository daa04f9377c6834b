//! Random sites written and read back, random sheets hurt and read.

use super::{read, set_length_field, sheet_of};
use crate::given::Given;
use crate::lent::hurt_length;
use crate::rng::Rng;
use crate::trials::trials;
use crate::{library, model, wild};
use water::raw::Card;

#[test]
fn random_sites_written() {
    let mut given = Given::default();
    trials("write", 20_000, |rng| {
        let site = wild::any(rng);
        let right = model::sheet_size(&wild::bounded(&site.card));
        let room = match rng.below(8) {
            0 => right - 1,
            1 => rng.between(0, right as i64) as usize,
            2 => right + 1 + rng.below(30) as usize,
            _ => right,
        };
        let mut bytes: Vec<u8> = (0..room).map(|_| rng.next() as u8).collect();
        given.count(library::write_sheet(rng, site.card, &site.ground, &site.state, &mut bytes).number);
    });
    given.assert_often("write", &[0, 1, 2, 3, 8], 40);
}

#[test]
fn random_sites_there_and_back() {
    trials("there and back", 10_000, |rng| {
        let site = wild::good(rng);
        let sheet = sheet_of(rng, &site);
        let (heard, back) = read(rng, &sheet, site.card.columns, site.card.rows);
        assert_eq!(heard.number, 0);
        assert_eq!(back, site);
        assert_eq!(sheet_of(rng, &back), sheet, "a sheet that was read is written as the same bytes");
    });
}

/// Sheets of which most are hurt: header fields, lengths, words, single bits, cut or stretched, or bytes without sense.
#[test]
fn random_sheets_read() {
    let mut given = Given::default();
    trials("read", 20_000, |rng| {
        let site = wild::good(rng);
        let mut sheet = sheet_of(rng, &site);
        for _ in 0..rng.pick(&[0, 1, 1, 1, 2]) {
            hurt_sheet(rng, &mut sheet);
        }
        let (columns, rows) = match rng.below(10) {
            // by the header, as a host would, or by the site
            0..=2 if sheet.len() > 6 => (u32::from(sheet[5]), u32::from(sheet[6])),
            _ => (site.card.columns, site.card.rows),
        };
        let sizes = Card { columns, rows, ..Card::default() };
        let mut ground = vec![-77; model::cells(&sizes)];
        let mut state = vec![-88; model::state_length(&sizes)];
        if rng.percent(4) {
            hurt_length(rng, &mut ground);
        }
        if rng.percent(4) {
            hurt_length(rng, &mut state);
        }
        given.count(library::read_sheet(rng, &sheet, &mut ground, &mut state).number);
    });
    given.assert_often("read", &[0, 1, 2, 3, 9], 40);
}

fn hurt_sheet(rng: &mut Rng, sheet: &mut Vec<u8>) {
    if sheet.len() < 19 {
        return;
    }
    match rng.below(9) {
        // one bit anywhere, or one in the header
        0 => {
            let place = rng.below(sheet.len() as u64) as usize;
            sheet[place] ^= 1 << rng.below(8);
        }
        1 => sheet[rng.below(19) as usize] ^= 1 << rng.below(8),
        // a header field at or beyond an end of its range
        2 => sheet[rng.pick(&[5, 6])] = rng.pick(&[0, 1, 128, 129, 255]),
        3 => {
            let side: u32 = rng.pick(&[0, 99_999, 100_000, 20_000_000, 20_000_001, u32::MAX]);
            let place = rng.pick(&[7, 11]);
            sheet[place..place + 4].copy_from_slice(&side.to_be_bytes());
        }
        4 => {
            let (place, number) =
                rng.pick(&[(15, 0u16), (15, 1), (15, 1_000), (15, 1_001), (17, 10_000), (17, 10_001), (17, u16::MAX)]);
            sheet[place..place + 2].copy_from_slice(&number.to_be_bytes());
        }
        // a word out of its range, or on a wall
        5 | 6 if sheet.len() >= 23 => {
            let place = 19 + 4 * rng.below((sheet.len() as u64 - 19) / 4) as usize;
            let word: i32 = rng.pick(&[1, -1, 20_000_001, -20_000_001, 50_000_001, -50_000_001, i32::MIN, i32::MAX]);
            sheet[place..place + 4].copy_from_slice(&word.to_be_bytes());
        }
        // another length, with the length field told or not
        7 => {
            let length = rng.pick(&[sheet.len() - 1, sheet.len() + 1, sheet.len() - 4, sheet.len() + 4, 19, 18, 0]);
            sheet.resize(length, 0);
            if length >= 4 && rng.percent(60) {
                set_length_field(sheet);
            }
        }
        _ => sheet[4] = rng.pick(&[0, 2, 255]),
    }
}

/// Bytes without sense, some of them behind a header that has one.
#[test]
fn bytes_without_sense() {
    let mut given = Given::default();
    trials("bytes without sense", 5_000, |rng| {
        let length = if rng.percent(50) { rng.pick(&[43, 63]) } else { rng.below(90) };
        let mut sheet: Vec<u8> = (0..length).map(|_| (rng.next() >> rng.below(64)) as u8).collect();
        if sheet.len() >= 5 && rng.percent(70) {
            set_length_field(&mut sheet);
            sheet[4] = 1;
        }
        if sheet.len() >= 19 && rng.percent(50) {
            // 1×1 or 2×1 cells of 1 m, steps of 100 ms
            sheet[5..18].copy_from_slice(&[rng.pick(&[1, 2]), 1, 0, 15, 66, 64, 0, 15, 66, 64, 0, 100, 0]);
        }
        let any = (rng.below(4) as usize, rng.below(12) as usize);
        let (ground, state) = rng.pick(&[(1, 5), (2, 9), any]);
        given.count(library::read_sheet(rng, &sheet, &mut vec![5; ground], &mut vec![5; state]).number);
    });
    given.assert_some("bytes without sense", &[1, 2, 3, 9], 100);
}
