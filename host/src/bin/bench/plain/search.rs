//! The search, in both forms.

use super::site::{card_fits, cells, height_fits, state_length, values_fit};
use water::raw::{Card, Chamber, Found, Window};

/// Both forms, over a register that gives its chambers one by one.
fn search_in<'a>(
    card: Card,
    ground: &[i32],
    state: &[i32],
    register: impl ExactSizeIterator<Item = (&'a i64, &'a i64)> + Clone,
    window: Window,
    depth: i32,
    found: &mut [u32],
) -> Found {
    let refused = |number| Found { number, count: 0 };
    if !card_fits(&card) {
        return refused(1);
    }
    if ground.len() != cells(&card) || state.len() != state_length(&card) || register.len() > 1_000 {
        return refused(2);
    }
    let (dx, dy) = (i64::from(card.dx), i64::from(card.dy));
    let (width, height) = (i64::from(card.columns) * dx, i64::from(card.rows) * dy);
    let window_fits = window.west.is_finite() && window.south.is_finite() && window.east.is_finite() && window.north.is_finite();
    let chambers_fit = register.clone().all(|(x, y)| (0..=width).contains(x) && (0..=height).contains(y));
    if !(values_fit(&card, ground, state) && height_fits(depth) && window_fits && chambers_fit) {
        return refused(3);
    }
    let mut places = [0u32; 1_000];
    let mut count = 0;
    for (place, (&x, &y)) in register.enumerate() {
        let inside = window.west <= x as f64 && x as f64 <= window.east && window.south <= y as f64 && y as f64 <= window.north;
        if inside {
            let column = (x / dx).min(i64::from(card.columns) - 1) as usize;
            let row = (y / dy).min(i64::from(card.rows) - 1) as usize;
            if state[row * card.columns as usize + column] >= depth {
                places[count] = place as u32;
                count += 1;
            }
        }
    }
    if found.len() < count {
        return Found { number: 8, count: count as u32 };
    }
    found[..count].copy_from_slice(&places[..count]);
    Found { number: 0, count: count as u32 }
}

pub fn search(
    card: Card,
    ground: &[i32],
    state: &[i32],
    chambers: &[Chamber],
    window: Window,
    depth: i32,
    found: &mut [u32],
) -> Found {
    search_in(card, ground, state, chambers.iter().map(|chamber| (&chamber.x, &chamber.y)), window, depth, found)
}

#[allow(clippy::too_many_arguments)]
pub fn search_lists(
    card: Card,
    ground: &[i32],
    state: &[i32],
    xs: &[i64],
    ys: &[i64],
    window: Window,
    depth: i32,
    found: &mut [u32],
) -> Found {
    if xs.len() != ys.len() {
        return Found { number: if card_fits(&card) { 2 } else { 1 }, count: 0 };
    }
    search_in(card, ground, state, xs.iter().zip(ys), window, depth, found)
}
