//! Sheets: written, read back, damaged, cut short, and read into lists of the wrong length.

mod boundary;
mod random;
mod sizes;

use crate::rng::Rng;
use crate::wild::Wild;
use crate::{library, model};
use water::raw::{Card, Heard, Wrote};

/// A site of the given size with words of every kind in it.
fn filled(columns: u32, rows: u32) -> Wild {
    let rng = &mut Rng::new(u64::from(columns * 1_000 + rows));
    let mut site = Wild::empty(Card { columns, rows, dx: 100_000, dy: 20_000_000, dt: 1_000, steps: 10_000 });
    for k in 0..site.ground.len() {
        site.ground[k] = rng.pick(&[-50_000_000, -1, 0, 1, 256, 50_000_000]);
        site.state[k] = rng.pick(&[0, 1, 255, 65_536, 16_777_216, 50_000_000]);
    }
    for place in site.inner_faces() {
        site.state[place] = rng.pick(&[-20_000_000, -1, -256, 0, 20_000_000]);
    }
    site
}

/// The sheet of a good site, written by the library.
fn sheet_of(rng: &mut Rng, site: &Wild) -> Vec<u8> {
    let size = model::sheet_size(&site.card);
    let mut bytes = vec![0xee; size];
    let wrote = library::write_sheet(rng, site.card, &site.ground, &site.state, &mut bytes);
    assert_eq!(wrote, Wrote { number: 0, size: size as u32 });
    bytes
}

/// Reads into lists of the right length for these columns and rows, filled with something else.
fn read(rng: &mut Rng, sheet: &[u8], columns: u32, rows: u32) -> (Heard, Wild) {
    let sizes = Card { columns, rows, ..Card::default() };
    let mut ground = vec![-77; model::cells(&sizes)];
    let mut state = vec![-88; model::state_length(&sizes)];
    let heard = library::read_sheet(rng, sheet, &mut ground, &mut state);
    (heard, Wild { card: heard.card, ground, state })
}

fn set_length_field(sheet: &mut [u8]) {
    let length = sheet.len() as u32;
    sheet[..4].copy_from_slice(&length.to_be_bytes());
}
