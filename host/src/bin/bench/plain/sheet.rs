//! The sheet's reader and writer.

use super::site::{card_fits, cells, check, ground_fits, height_fits, speed_fits, state_length};
use water::raw::{Card, Heard, Wrote};

fn word(bytes: &[u8]) -> i32 {
    i32::from_be_bytes([bytes[0], bytes[1], bytes[2], bytes[3]])
}

fn half(bytes: &[u8]) -> u32 {
    u32::from(u16::from_be_bytes([bytes[0], bytes[1]]))
}

fn all_words(bytes: &[u8], test: impl Fn(i32) -> bool) -> bool {
    bytes.chunks_exact(4).fold(true, |fits, bytes| fits & test(word(bytes)))
}

/// The values of a sheet's words, tested on the bytes so that no list is touched before 3 is ruled out.
fn values_fit(card: &Card, ground: &[u8], state: &[u8]) -> bool {
    let (columns, rows) = (card.columns as usize, card.rows as usize);
    let (heights, velocities) = state.split_at(4 * columns * rows);
    let (east, north) = velocities.split_at(4 * (columns + 1) * rows);
    all_words(ground, ground_fits)
        && all_words(heights, height_fits)
        && all_words(velocities, speed_fits)
        && east.chunks_exact(4 * (columns + 1)).all(|row| word(row) == 0 && word(&row[4 * columns..]) == 0)
        && all_words(&north[..4 * columns], |velocity| velocity == 0)
        && all_words(&north[4 * columns * rows..], |velocity| velocity == 0)
}

fn fill(list: &mut [i32], bytes: &[u8]) {
    for (element, bytes) in list.iter_mut().zip(bytes.chunks_exact(4)) {
        *element = word(bytes);
    }
}

pub fn read_sheet(sheet: &[u8], ground: &mut [i32], state: &mut [i32]) -> Heard {
    let refused = |number| Heard { number, card: Card::default() };
    if sheet.len() < 19 || word(sheet) as u32 as usize != sheet.len() || sheet[4] != 1 {
        return refused(9);
    }
    let (head, words) = sheet.split_at(19);
    let card = Card {
        columns: head[5].into(),
        rows: head[6].into(),
        dx: word(&head[7..]) as u32,
        dy: word(&head[11..]) as u32,
        dt: half(&head[15..]),
        steps: half(&head[17..]),
    };
    if !card_fits(&card) {
        return refused(1);
    }
    let (cells, places) = (cells(&card), state_length(&card));
    if words.len() != 4 * (cells + places) || ground.len() != cells || state.len() != places {
        return refused(2);
    }
    let (ground_words, state_words) = words.split_at(4 * cells);
    if !values_fit(&card, ground_words, state_words) {
        return refused(3);
    }
    fill(ground, ground_words);
    fill(state, state_words);
    Heard { number: 0, card }
}

fn put(bytes: &mut [u8], list: &[i32]) {
    for (bytes, element) in bytes.chunks_exact_mut(4).zip(list) {
        bytes.copy_from_slice(&element.to_be_bytes());
    }
}

pub fn write_sheet(card: Card, ground: &[i32], state: &[i32], bytes: &mut [u8]) -> Wrote {
    let mut number = check(&card, ground, state, true);
    let size = 19 + 4 * (ground.len() + state.len());
    if number == 0 && bytes.len() < size {
        number = 8;
    }
    if number != 0 {
        return Wrote { number, size: 0 };
    }
    let (head, words) = bytes[..size].split_at_mut(19);
    head[..4].copy_from_slice(&(size as u32).to_be_bytes());
    head[4..7].copy_from_slice(&[1, card.columns as u8, card.rows as u8]);
    head[7..11].copy_from_slice(&card.dx.to_be_bytes());
    head[11..15].copy_from_slice(&card.dy.to_be_bytes());
    head[15..17].copy_from_slice(&(card.dt as u16).to_be_bytes());
    head[17..].copy_from_slice(&(card.steps as u16).to_be_bytes());
    let (ground_words, state_words) = words.split_at_mut(4 * ground.len());
    put(ground_words, ground);
    put(state_words, state);
    Wrote { number: 0, size: size as u32 }
}
