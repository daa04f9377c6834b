//! What parts words: blanks, tabs, line feeds and carriage returns, any number of them, and no other byte. And texts that end too soon.

use super::{number, read, shown, with, FIRST, GOOD, GROUND, READ};
use crate::given::Given;
use crate::library;
use crate::rng::Rng;

const PARTS: [u8; 4] = *b" \t\n\r";

#[test]
fn each_of_the_four_and_any_number_of_them() {
    for part in [" ", "\t", "\n", "\r", "\r\n", "\n\r", "  ", "\t \t", "\n\n\n", " \r\n\t ", "\r\r"] {
        for before in ["", part] {
            for behind in ["", part] {
                let text = format!("{before}{}{behind}", GOOD.join(part));
                assert_eq!(read(text.as_bytes(), 6), (READ, GROUND.to_vec()), "{text:?}");
            }
        }
    }
    let long = GOOD.join(&" \t\r\n".repeat(300));
    assert_eq!(read(long.as_bytes(), 6), (READ, GROUND.to_vec()));
}

/// A line for each key and row with each kind of line end, the last line with one and without.
#[test]
fn line_ends() {
    for end in ["\n", "\r\n", "\r"] {
        let mut text: String = GOOD[..FIRST].chunks(2).map(|line| line.join(" ") + end).collect();
        text += &(GOOD[FIRST..FIRST + 3].join(" ") + end + &GOOD[FIRST + 3..].join(" "));
        for text in [text.clone(), text.clone() + end, text + end + end] {
            assert_eq!(read(text.as_bytes(), 6), (READ, GROUND.to_vec()), "{text:?}");
        }
    }
}

/// Any of the other 252 bytes between two words makes them one, which is no word of a raster, or one too few.
#[test]
fn no_other_byte_parts_words() {
    for gap in 1..GOOD.len() {
        let head = GOOD[..gap].join(" ").into_bytes();
        let tail = GOOD[gap..].join(" ").into_bytes();
        for byte in (0..=255).filter(|byte| !PARTS.contains(byte)) {
            let text = [&head[..], &[byte], &tail].concat();
            assert_eq!(number(&text), 10, "{:?}", shown(&text));
            let beside = [&head[..], b" ", &[byte], b" ", &tail].concat();
            // by itself it is a word too many
            assert_eq!(number(&beside), 10, "{:?}", shown(&beside));
        }
    }
}

/// Nor does one stand before the first word or behind the last; there a digit makes another number.
#[test]
fn no_other_byte_at_the_ends() {
    let good = with(&[]);
    for byte in 0..=255 {
        let before = [&[byte], &good[..]].concat();
        let behind = [&good[..], &[byte]].concat();
        let parts = PARTS.contains(&byte);
        assert_eq!(number(&before), if parts { 0 } else { 10 }, "byte {byte}");
        // 6 becomes 60 or more
        let right = if parts {
            0
        } else if byte.is_ascii_digit() {
            3
        } else {
            10
        };
        assert_eq!(number(&behind), right, "byte {byte}");
    }
    // a mark of the byte order, a zero byte as C's texts have it, an end of file as old programs wrote it
    assert_eq!(number(&[&b"\xef\xbb\xbf"[..], &good].concat()), 10);
    assert_eq!(number(&[&good[..], b"\n\0"].concat()), 10);
    assert_eq!(number(&[&good[..], b"\n\x1a"].concat()), 10);
}

#[test]
fn nothing_at_all() {
    for text in ["", " ", "\n", "\t\r\n ", "\0", "ncols", " ncols ", "0", "-", "."] {
        for length in [0, 1, 6] {
            assert_eq!(read(text.as_bytes(), length).0.number, 10, "{text:?}");
        }
    }
    assert_eq!(number(&[b' '; 5_000]), 10);
}

/// Cut anywhere it is none: the last value has one digit.
#[test]
fn every_truncation() {
    let good = with(&[]);
    for length in 0..good.len() {
        assert_eq!(number(&good[..length]), 10, "{:?}", shown(&good[..length]));
    }
    for from in 1..good.len() {
        assert_eq!(number(&good[from..]), 10, "{:?}", shown(&good[from..]));
    }
}

/// Each byte of the good text changed to each of its other 255 values: as the model has it, and never read as another size.
#[test]
fn each_byte_damaged() {
    let good = with(&[]);
    let mut given = Given::default();
    for place in 0..good.len() {
        for change in 1..=255 {
            let mut text = good.clone();
            text[place] ^= change;
            let answer = library::read_raster(&mut Rng::new(u64::from(change)), &text, &mut [-77; 6]);
            assert!(answer.number > 0 || (answer.columns, answer.rows) == (3, 2));
            given.count(answer.number);
        }
    }
    given.assert_often("a damaged byte of a raster", &[0, 1, 3, 10], 5_000);
}
