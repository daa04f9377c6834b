//! "Ground from the surveyor's raster", document 02's [3]: a text to a ground and back.

use super::site::{card_fits, cells, GROUNDS};
use water::raw::{Card, Raster, Wrote};

/// What a text says, in cells and micrometres.
struct Said {
    columns: i128,
    rows: i128,
    side: i128,
    no_data: Option<i128>,
    /// the northern row first
    values: Vec<i128>,
}

/// Blanks, tabs and line ends part the words; each byte of a word is taken for a character.
fn words(text: &[u8]) -> Vec<String> {
    let parts = |byte: &u8| matches!(byte, b' ' | b'\t' | b'\n' | b'\r');
    let word = |bytes: &[u8]| bytes.iter().map(|&byte| char::from(byte)).collect();
    text.split(parts).filter(|bytes| !bytes.is_empty()).map(word).collect()
}

/// One to so many digits, and nothing else.
fn digits(text: &str, most: usize) -> Option<i128> {
    let right = (1..=most).contains(&text.len()) && text.chars().all(|digit| digit.is_ascii_digit());
    right.then(|| text.parse().expect("a few digits"))
}

/// "ncols and nrows are digits only", up to 12.
fn count(word: &str) -> Option<i128> {
    digits(word, 12)
}

/// "An optional minus, digits, and optionally a point and one to six digits, exact to the micrometre."
fn decimal(word: &str) -> Option<i128> {
    let (sign, size) = match word.strip_prefix('-') {
        Some(size) => (-1, size),
        None => (1, word),
    };
    let (whole, part) = match size.split_once('.') {
        // a part in millionths: 5 is 500000
        Some((whole, part)) => (whole, digits(part, 6)? * 10_i128.pow(6 - part.len() as u32)),
        None => (size, 0),
    };
    Some(sign * (1_000_000 * digits(whole, 12)? + part))
}

/// The word behind a key, which is the first of these words; both are taken off them.
fn behind<'a>(words: &mut &'a [String], key: &str) -> Option<&'a str> {
    let (first, others) = words.split_first()?;
    let (value, others) = others.split_first()?;
    if !first.eq_ignore_ascii_case(key) {
        return None;
    }
    *words = others;
    Some(value)
}

/// What the text says; none where it is not such a raster, or has a wrong count of values.
fn said(text: &[u8]) -> Option<Said> {
    let words = words(text);
    let rest = &mut &words[..];
    let columns = count(behind(rest, "ncols")?)?;
    let rows = count(behind(rest, "nrows")?)?;
    decimal(behind(rest, "xllcorner")?)?;
    decimal(behind(rest, "yllcorner")?)?;
    let side = decimal(behind(rest, "cellsize")?)?;
    let no_data = match behind(rest, "nodata_value") {
        Some(value) => Some(decimal(value)?),
        None => None,
    };
    let values: Vec<i128> = rest.iter().map(|word| decimal(word)).collect::<Option<_>>()?;
    (values.len() as i128 == columns * rows).then_some(Said { columns, rows, side, no_data, values })
}

/// The call. It looks for 10 first, then 1, 2 and 3; refused, columns, rows and side are 0 and the list is as lent.
pub fn read_raster(text: &[u8], ground: &mut [i32]) -> Raster {
    let refused = |number| Raster { number, columns: 0, rows: 0, side: 0 };
    let said = match said(text) {
        Some(said) => said,
        None => return refused(10),
    };
    let Said { columns, rows, side, no_data, values } = said;
    if !(1..=128).contains(&columns) || !(1..=128).contains(&rows) || !(100_000..=20_000_000).contains(&side) {
        return refused(1);
    }
    if ground.len() as i128 != columns * rows {
        return refused(2);
    }
    let in_range = |value: i128| i128::from(*GROUNDS.start()) <= value && value <= i128::from(*GROUNDS.end());
    if !values.iter().all(|&value| in_range(value) && Some(value) != no_data) {
        return refused(3);
    }
    // rows run south to north
    let rows_south_first = values.chunks(columns as usize).rev().flatten();
    for (level, &value) in ground.iter_mut().zip(rows_south_first) {
        *level = value as i32;
    }
    Raster { number: 0, columns: columns as u32, rows: rows as u32, side: side as u32 }
}

/// Metres with six places.
fn metres(micrometres: i32) -> String {
    let size = micrometres.unsigned_abs();
    format!("{}{}.{:06}", if micrometres < 0 { "-" } else { "" }, size / 1_000_000, size % 1_000_000)
}

/// "Lower-case keys, no NODATA_value, both corner values 0, a line for each key and row, single blanks, six places in cellsize and values."
fn written(card: &Card, ground: &[i32]) -> String {
    let mut text = format!("ncols {}\nnrows {}\nxllcorner 0\nyllcorner 0\n", card.columns, card.rows);
    text += &format!("cellsize {}\n", metres(card.dx as i32));
    for row in ground.chunks(card.columns as usize).rev() {
        let words: Vec<String> = row.iter().map(|&level| metres(level)).collect();
        text += &format!("{}\n", words.join(" "));
    }
    text
}

/// The call. The text in front, the rest as lent; refused, size 0 and the text as lent.
pub fn write_raster(card: Card, ground: &[i32], text: &mut [u8]) -> Wrote {
    let refused = |number| Wrote { number, size: 0 };
    if !card_fits(&card) {
        return refused(1);
    }
    if ground.len() != cells(&card) || card.dx != card.dy {
        return refused(2);
    }
    if !ground.iter().all(|level| GROUNDS.contains(level)) {
        return refused(3);
    }
    let written = written(&card, ground);
    if text.len() < written.len() {
        return refused(8);
    }
    text[..written.len()].copy_from_slice(written.as_bytes());
    Wrote { number: 0, size: written.len() as u32 }
}
