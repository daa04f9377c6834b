//! Surveyors' rasters, document 02's [3]: read, refused on both sides of every boundary, written, there and back, random texts that were
//! changed in every way, and the wrapper. Every call is held to the model (library.rs), word by word; numbers stand here by hand.

mod boundary;
mod gdal;
mod keys;
mod numbers;
mod order;
mod random;
mod survey;
mod values;
mod words;
mod wrapped;
mod written;

pub use survey::{hurt_text, Survey};

use crate::library;
use crate::rng::Rng;
use water::raw::Raster;

/// A good raster of 3 columns and 2 rows by its words, one of which a test changes.
const GOOD: [&str; 18] = [
    "ncols",
    "3",
    "nrows",
    "2",
    "xllcorner",
    "431000.5",
    "yllcorner",
    "-12",
    "cellsize",
    "0.5",
    "NODATA_value",
    "-9999",
    "1",
    "2.5",
    "-3",
    "4",
    "0",
    "6",
];

// where the words behind its keys stand, and its first value
const COLUMNS: usize = 1;
const ROWS: usize = 3;
const WEST: usize = 5;
const SOUTH: usize = 7;
const SIDE: usize = 9;
const NO_DATA: usize = 11;
const FIRST: usize = 12;

/// Its ground, south to north.
const GROUND: [i32; 6] = [4_000_000, 0, 6_000_000, 1_000_000, 2_500_000, -3_000_000];

/// What reading it answers.
const READ: Raster = Raster { number: 0, columns: 3, rows: 2, side: 500_000 };

/// The good raster with some of its words changed, parted by blanks.
fn with(changes: &[(usize, &str)]) -> Vec<u8> {
    let mut words = GOOD;
    for &(place, word) in changes {
        words[place] = word;
    }
    words.join(" ").into_bytes()
}

/// Head and values as one text; the side is 1 m, and there is no no-data value.
fn of_size(columns: &str, rows: &str, values: usize) -> Vec<u8> {
    let head = format!("ncols {columns} nrows {rows} xllcorner 0 yllcorner 0 cellsize 1");
    (head + &" 2".repeat(values)).into_bytes()
}

/// The answer and the ground of a text that is read into a list of so many words, no two of them alike, with either end of both lists against
/// a fence. Refused, it answers nothing beside its number, and the list is as lent.
fn read(text: &[u8], length: usize) -> (Raster, Vec<i32>) {
    let lent: Vec<i32> = (0..length as i32).map(|k| -77_000_000 - k).collect();
    let mut ground = lent.clone();
    // seeds that give all four pairs of ends
    let answers = [0, 1, 3, 14].map(|seed| {
        ground.copy_from_slice(&lent);
        library::read_raster(&mut Rng::new(seed), text, &mut ground)
    });
    let answer = answers[0];
    assert_eq!(answers, [answer; 4]);
    if answer.number > 0 {
        assert_eq!((answer.columns, answer.rows, answer.side), (0, 0, 0), "refused with {}", answer.number);
        assert_eq!(ground, lent, "refused with {}", answer.number);
    }
    (answer, ground)
}

/// The number alone, of a text that is read into six words.
fn number(text: &[u8]) -> u32 {
    read(text, 6).0.number
}

/// The good raster with one word changed: its number.
fn number_with(place: usize, word: &str) -> u32 {
    number(&with(&[(place, word)]))
}

fn shown(text: &[u8]) -> String {
    String::from_utf8_lossy(text).into_owned()
}
