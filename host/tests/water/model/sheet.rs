//! "The site sheet": big-endian bytes to a site and back.

use super::site::{card_fits, cells, check, state_length, Site};
use water::raw::{Card, Heard, Wrote};

/// Size 19 + 16·columns·rows + 4·columns + 4·rows.
pub fn sheet_size(card: &Card) -> usize {
    let (columns, rows) = (card.columns as usize, card.rows as usize);
    19 + 16 * columns * rows + 4 * columns + 4 * rows
}

fn unsigned(bytes: &[u8]) -> u32 {
    bytes.iter().fold(0, |number, &byte| number << 8 | u32::from(byte))
}

/// Length (4 bytes), version (1), columns (1), rows (1), dx (4), dy (4), dt (2), steps wanted (2).
fn header(sheet: &[u8]) -> Card {
    Card {
        columns: unsigned(&sheet[5..6]),
        rows: unsigned(&sheet[6..7]),
        dx: unsigned(&sheet[7..11]),
        dy: unsigned(&sheet[11..15]),
        dt: unsigned(&sheet[15..17]),
        steps: unsigned(&sheet[17..19]),
    }
}

/// The call. It looks for 9 first, then 1, 2 and 3; refused, the card is all zero and the lists are as lent.
pub fn read_sheet(sheet: &[u8], ground: &mut [i32], state: &mut [i32]) -> Heard {
    let refused = |number| Heard { number, card: Card::default() };
    if sheet.len() < 19 || unsigned(&sheet[..4]) as usize != sheet.len() || sheet[4] != 1 {
        return refused(9);
    }
    let card = header(sheet);
    if !card_fits(&card) {
        return refused(1);
    }
    if sheet.len() != sheet_size(&card) || ground.len() != cells(&card) || state.len() != state_length(&card) {
        return refused(2);
    }
    let words: Vec<i32> = sheet[19..].chunks(4).map(|word| unsigned(word) as i32).collect();
    let (new_ground, new_state) = words.split_at(cells(&card));
    let number = check(&Site { card, ground: new_ground, state: new_state });
    if number != 0 {
        return refused(number);
    }
    ground.copy_from_slice(new_ground);
    state.copy_from_slice(new_state);
    Heard { number: 0, card }
}

/// The call. The bytes in front, the rest as lent; refused, size 0 and bytes as lent.
pub fn write_sheet(card: Card, ground: &[i32], state: &[i32], bytes: &mut [u8]) -> Wrote {
    let mut number = check(&Site { card, ground, state });
    if number == 0 && bytes.len() < sheet_size(&card) {
        number = 8;
    }
    if number != 0 {
        return Wrote { number, size: 0 };
    }
    let size = sheet_size(&card);
    let mut sheet = Vec::with_capacity(size);
    sheet.extend((size as u32).to_be_bytes());
    sheet.extend([1, card.columns as u8, card.rows as u8]);
    sheet.extend(card.dx.to_be_bytes());
    sheet.extend(card.dy.to_be_bytes());
    sheet.extend((card.dt as u16).to_be_bytes());
    sheet.extend((card.steps as u16).to_be_bytes());
    for word in ground.iter().chain(state) {
        sheet.extend(word.to_be_bytes());
    }
    assert_eq!(sheet.len(), size);
    bytes[..size].copy_from_slice(&sheet);
    Wrote { number: 0, size: size as u32 }
}
