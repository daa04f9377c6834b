//! Sites with one thing made wrong that refusals 1 to 3 speak of.

use super::{bounded, Wild};
use crate::lent::hurt_length;
use crate::model;
use crate::rng::Rng;
use water::raw::Card;

/// Makes one thing wrong that refusals 1 to 3 speak of (a size changed may only make the lists' lengths wrong).
pub fn hurt(rng: &mut Rng, site: &mut Wild) {
    match rng.below(10) {
        0..=2 => hurt_card(rng, &mut site.card),
        3 => hurt_length(rng, &mut site.ground),
        4 => hurt_length(rng, &mut site.state),
        5 | 6 => hurt_wall(rng, site),
        _ => hurt_value(rng, site),
    }
}

fn hurt_card(rng: &mut Rng, card: &mut Card) {
    match rng.below(6) {
        0 => card.columns = rng.pick(&[0, 129, 255, 256, u32::MAX, card.columns + 1, card.rows]),
        1 => card.rows = rng.pick(&[0, 129, 255, 65_536, u32::MAX, card.rows + 1, card.columns]),
        2 => card.dx = rng.pick(&[0, 99_999, 20_000_001, u32::MAX, 1 << 31]),
        3 => card.dy = rng.pick(&[0, 99_999, 20_000_001, u32::MAX, 1 << 31]),
        4 => card.dt = rng.pick(&[0, 1_001, u32::MAX, 1 << 31]),
        _ => card.steps = rng.pick(&[10_001, u32::MAX, 1 << 31]),
    }
}

fn hurt_value(rng: &mut Rng, site: &mut Wild) {
    let cells = model::cells(&bounded(&site.card));
    if rng.percent(30) {
        if let Some(word) = random_place(rng, &mut site.ground) {
            *word = rng.pick(&[-50_000_001, 50_000_001, i32::MIN, i32::MAX]);
        }
        return;
    }
    let cells = cells.min(site.state.len());
    let (heights, velocities) = site.state.split_at_mut(cells);
    if rng.percent(50) {
        if let Some(word) = random_place(rng, heights) {
            *word = rng.pick(&[-1, 50_000_001, i32::MIN, i32::MAX]);
        }
    } else if let Some(word) = random_place(rng, velocities) {
        *word = rng.pick(&[-20_000_001, 20_000_001, i32::MIN, i32::MAX]);
    }
}

fn random_place<'a>(rng: &mut Rng, list: &'a mut [i32]) -> Option<&'a mut i32> {
    let length = list.len() as u64;
    if length == 0 {
        None
    } else {
        list.get_mut(rng.below(length) as usize)
    }
}

/// A velocity on one of the outer walls.
fn hurt_wall(rng: &mut Rng, site: &mut Wild) {
    if !(1..=128).contains(&site.card.columns) || !(1..=128).contains(&site.card.rows) {
        return;
    }
    let (column, row) = (rng.below(site.card.columns.into()) as u32, rng.below(site.card.rows.into()) as u32);
    let place = match rng.below(4) {
        0 => site.east(0, row),
        1 => site.east(site.card.columns, row),
        2 => site.north(column, 0),
        _ => site.north(column, site.card.rows),
    };
    if let Some(word) = site.state.get_mut(place) {
        *word = rng.pick(&[1, -1, 20_000_000, -20_000_000]);
    }
}
