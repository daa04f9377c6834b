//! The raster's reader and writer. The reader goes over the words twice: one look decides, and only then is the list filled.

use super::site::{all, card_fits, cells, ground_fits};
use water::raw::{Card, Raster, Wrote};

fn words(text: &[u8]) -> impl Iterator<Item = &[u8]> + Clone {
    text.split(|byte| matches!(byte, b' ' | b'\t' | b'\n' | b'\r')).filter(|word| !word.is_empty())
}

/// A digit behind those that were read before it.
fn and_digit(number: i64, byte: u8) -> Option<i64> {
    let digit = byte.wrapping_sub(b'0');
    (digit < 10).then(|| 10 * number + i64::from(digit))
}

fn count(word: &[u8]) -> Option<i64> {
    if word.len() > 12 {
        return None;
    }
    word.iter().try_fold(0, |number, &byte| and_digit(number, byte))
}

/// What a decimal's last digit stands for, in micrometres, by how many digits stand behind its point.
const UNITS: [i64; 7] = [1_000_000, 100_000, 10_000, 1_000, 100, 10, 1];

fn decimal(word: &[u8]) -> Option<i64> {
    let (minus, size) = match word {
        [b'-', size @ ..] => (true, size),
        _ => (false, word),
    };
    let mut number = 0;
    let mut whole = 0;
    while let Some(longer) = size.get(whole).and_then(|&byte| and_digit(number, byte)) {
        number = longer;
        whole += 1;
        if whole > 12 {
            return None;
        }
    }
    let part = match &size[whole..] {
        [] => &[][..],
        [b'.', part @ ..] if (1..=6).contains(&part.len()) => part,
        _ => return None,
    };
    if whole == 0 {
        return None;
    }
    let number = UNITS[part.len()] * part.iter().try_fold(number, |number, &byte| and_digit(number, byte))?;
    Some(if minus { -number } else { number })
}

/// What stands before the values; columns and rows may be far out of range.
struct Head {
    columns: i64,
    rows: i64,
    side: i64,
    no_data: Option<i64>,
}

/// The head, which is taken off the words.
fn head<'a>(words: &mut (impl Iterator<Item = &'a [u8]> + Clone)) -> Option<Head> {
    let mut behind = |key: &[u8]| if words.next()?.eq_ignore_ascii_case(key) { words.next() } else { None };
    let columns = count(behind(b"ncols")?)?;
    let rows = count(behind(b"nrows")?)?;
    decimal(behind(b"xllcorner")?)?;
    decimal(behind(b"yllcorner")?)?;
    let side = decimal(behind(b"cellsize")?)?;
    let mut ahead = words.clone();
    let mut no_data = None;
    if ahead.next().map_or(false, |word| word.eq_ignore_ascii_case(b"nodata_value")) {
        no_data = Some(decimal(ahead.next()?)?);
        *words = ahead;
    }
    Some(Head { columns, rows, side, no_data })
}

pub fn read_raster(text: &[u8], ground: &mut [i32]) -> Raster {
    let refused = |number| Raster { number, columns: 0, rows: 0, side: 0 };
    let mut words = words(text);
    let Head { columns, rows, side, no_data } = match head(&mut words) {
        Some(head) => head,
        None => return refused(10),
    };
    let (mut values, mut fit) = (0, true);
    for word in words.clone() {
        let value = match decimal(word) {
            Some(value) => value,
            None => return refused(10),
        };
        values += 1;
        fit &= (-50_000_000..=50_000_000).contains(&value) && Some(value) != no_data;
    }
    if i128::from(columns) * i128::from(rows) != values {
        return refused(10);
    }
    if !(1..=128).contains(&columns) || !(1..=128).contains(&rows) || !(100_000..=20_000_000).contains(&side) {
        return refused(1);
    }
    if ground.len() != (columns * rows) as usize {
        return refused(2);
    }
    if !fit {
        return refused(3);
    }
    for row in ground.chunks_exact_mut(columns as usize).rev() {
        for (level, word) in row.iter_mut().zip(&mut words) {
            *level = decimal(word).unwrap_or(0) as i32;
        }
    }
    Raster { number: 0, columns: columns as u32, rows: rows as u32, side: side as u32 }
}

/// The bytes of a number below 1,000.
fn digits(number: u32) -> usize {
    1 + usize::from(number >= 10) + usize::from(number >= 100)
}

/// The bytes of so many micrometres as metres with six places.
fn length(micrometres: i32) -> usize {
    usize::from(micrometres < 0) + digits(micrometres.unsigned_abs() / 1_000_000) + 7
}

/// A text that is filled from its front.
struct Front<'a> {
    text: &'a mut [u8],
    filled: usize,
}

impl Front<'_> {
    fn put(&mut self, bytes: &[u8]) {
        self.text[self.filled..][..bytes.len()].copy_from_slice(bytes);
        self.filled += bytes.len();
    }

    /// So many last digits of a number.
    fn put_digits(&mut self, mut number: u32, digits: usize) {
        for byte in self.text[self.filled..][..digits].iter_mut().rev() {
            *byte = b'0' + (number % 10) as u8;
            number /= 10;
        }
        self.filled += digits;
    }

    fn put_metres(&mut self, micrometres: i32) {
        let size = micrometres.unsigned_abs();
        let whole = size / 1_000_000;
        if micrometres < 0 {
            self.put(b"-");
        }
        self.put_digits(whole, digits(whole));
        self.put(b".");
        self.put_digits(size, 6);
    }
}

pub fn write_raster(card: Card, ground: &[i32], text: &mut [u8]) -> Wrote {
    let refused = |number| Wrote { number, size: 0 };
    if !card_fits(&card) {
        return refused(1);
    }
    if ground.len() != cells(&card) || card.dx != card.dy {
        return refused(2);
    }
    if !all(ground, ground_fits) {
        return refused(3);
    }
    let side = card.dx as i32;
    let head = b"ncols \nnrows \nxllcorner 0\nyllcorner 0\ncellsize \n".len();
    let head = head + digits(card.columns) + digits(card.rows) + length(side);
    let size = head + ground.iter().map(|&level| length(level) + 1).sum::<usize>();
    if text.len() < size {
        return refused(8);
    }
    let mut front = Front { text: &mut text[..size], filled: 0 };
    front.put(b"ncols ");
    front.put_digits(card.columns, digits(card.columns));
    front.put(b"\nnrows ");
    front.put_digits(card.rows, digits(card.rows));
    front.put(b"\nxllcorner 0\nyllcorner 0\ncellsize ");
    front.put_metres(side);
    front.put(b"\n");
    for row in ground.chunks_exact(card.columns as usize).rev() {
        let (last, others) = row.split_last().expect("a row has a cell");
        for &level in others {
            front.put_metres(level);
            front.put(b" ");
        }
        front.put_metres(*last);
        front.put(b"\n");
    }
    Wrote { number: 0, size: size as u32 }
}
