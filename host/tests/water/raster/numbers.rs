//! Rasters by hand: what is read from them, and where it stands.

use super::{number_with, read, with, FIRST, GROUND, READ, SIDE};
use water::raw::Raster;

#[test]
fn the_good_raster() {
    assert_eq!(read(&with(&[]), 6), (READ, GROUND.to_vec()));
}

/// The last row of the text is the southern one, and comes first.
#[test]
fn the_northern_row_stands_first_in_the_text() {
    let text = b"ncols 2\nnrows 3\nxllcorner 0\nyllcorner 0\ncellsize 1\n31 32\n21 22\n11 12\n";
    let metres = [11, 12, 21, 22, 31, 32].map(|metres| metres * 1_000_000);
    assert_eq!(read(text, 6), (Raster { number: 0, columns: 2, rows: 3, side: 1_000_000 }, metres.to_vec()));
    // how the values stand in lines says nothing
    let text = b"ncols 3\nnrows 2\nxllcorner 0\nyllcorner 0\ncellsize 1\n31 32\n21 22\n11 12\n";
    let metres = [22, 11, 12, 31, 32, 21].map(|metres| metres * 1_000_000);
    assert_eq!(read(text, 6), (Raster { number: 0, columns: 3, rows: 2, side: 1_000_000 }, metres.to_vec()));
}

/// As a surveyor's program pads it: keys in columns, a blank before each line of values, CRLF.
#[test]
fn a_padded_raster() {
    let text = b"NCOLS        2\r\nNROWS        1\r\nXLLCORNER    440720.000000\r\nYLLCORNER    3750120.000000\r\n\
                 CELLSIZE     0.250000\r\nNODATA_VALUE -9999.00\r\n -0.500000 12.345678 \r\n";
    assert_eq!(read(text, 2), (Raster { number: 0, columns: 2, rows: 1, side: 250_000 }, vec![-500_000, 12_345_678]));
}

/// Decimals, and their micrometres.
const DECIMALS: [(&str, i32); 38] = [
    ("0", 0),
    ("-0", 0),
    ("-0.0", 0),
    ("000", 0),
    ("1", 1_000_000),
    ("-1", -1_000_000),
    ("007", 7_000_000),
    ("-000000000007", -7_000_000),
    ("0.5", 500_000),
    ("-0.5", -500_000),
    ("0.05", 50_000),
    ("0.000001", 1),
    ("-0.000001", -1),
    ("0.999999", 999_999),
    ("-0.999999", -999_999),
    ("-1.000001", -1_000_001),
    ("0.100000", 100_000),
    ("0.1", 100_000),
    ("0.010", 10_000),
    ("1.2", 1_200_000),
    ("1.23", 1_230_000),
    ("1.234", 1_234_000),
    ("1.2345", 1_234_500),
    ("1.23456", 1_234_560),
    ("1.234567", 1_234_567),
    ("12.345678", 12_345_678),
    ("-12.345678", -12_345_678),
    // a float times a million, cut off, is one less or one more
    ("0.57", 570_000),
    ("1.15", 1_150_000),
    ("4.35", 4_350_000),
    ("8.41", 8_410_000),
    ("16.4", 16_400_000),
    ("0.000029", 29),
    ("32.000009", 32_000_009),
    ("49.999999", 49_999_999),
    ("-49.999999", -49_999_999),
    ("50", 50_000_000),
    ("-50.000000", -50_000_000),
];

/// Each decimal is exact to the micrometre, in a value and in cellsize.
#[test]
fn decimals_are_exact() {
    for (word, micrometres) in DECIMALS {
        for place in 0..6 {
            let (answer, ground) = read(&with(&[(FIRST + place, word)]), 6);
            assert_eq!(answer, READ, "{word}");
            // the text's first row is the second of the ground
            assert_eq!(ground[(place + 3) % 6], micrometres, "{word}");
        }
        if (100_000..=20_000_000).contains(&micrometres) {
            let (answer, ground) = read(&with(&[(SIDE, word)]), 6);
            assert_eq!((answer, &ground[..]), (Raster { side: micrometres as u32, ..READ }, &GROUND[..]), "{word}");
        }
    }
}

/// Each digit of each place, before the point and behind it.
#[test]
fn every_digit_of_every_place() {
    for place in 0..8 {
        for digit in 0..10 {
            let micrometres = digit * 10_i32.pow(place);
            if micrometres > 50_000_000 {
                let word = format!("{}.000000", micrometres / 1_000_000);
                assert_eq!(number_with(FIRST, &word), 3, "{word}");
                continue;
            }
            let word = format!("{}.{:06}", micrometres / 1_000_000, micrometres % 1_000_000);
            let (_, ground) = read(&with(&[(FIRST, &word), (FIRST + 1, &format!("-{word}"))]), 6);
            assert_eq!((ground[3], ground[4]), (micrometres, -micrometres), "{word}");
        }
    }
}

/// The smallest and the largest, and long thin ones: each word at its place.
#[test]
fn sizes() {
    for (columns, rows) in [(1, 1), (1, 2), (2, 1), (1, 128), (128, 1), (127, 128), (128, 127), (128, 128), (16, 9)] {
        // a value for each column and row, counted from the south
        let level = |column: usize, row: usize| (1_000 * column + row) as i32 - 60_000;
        let mut text = format!("ncols {columns}\nnrows {rows}\nxllcorner 0\nyllcorner 0\ncellsize 20\n");
        for row in (0..rows).rev() {
            for column in 0..columns {
                let micrometres = level(column, row);
                let minus = if micrometres < 0 { "-" } else { "" };
                text += &format!(" {minus}0.{:06}", micrometres.abs());
            }
            text += "\n";
        }
        let (answer, ground) = read(text.as_bytes(), columns * rows);
        let right = Raster { number: 0, columns: columns as u32, rows: rows as u32, side: 20_000_000 };
        assert_eq!(answer, right);
        let expected: Vec<i32> = (0..rows).flat_map(|row| (0..columns).map(move |column| level(column, row))).collect();
        assert_eq!(ground, expected);
    }
}
