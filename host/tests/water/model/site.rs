//! "Units and ranges": the layout of a site's lists, and the first three checks.

use super::bank::Cell;
use std::ops::RangeInclusive;
use water::raw::Card;

pub const HEIGHTS: RangeInclusive<i32> = 0..=50_000_000;
pub const GROUNDS: RangeInclusive<i32> = -50_000_000..=50_000_000;
pub const VELOCITIES: RangeInclusive<i32> = -20_000_000..=20_000_000;

/// Ground is columns·rows words.
pub fn cells(card: &Card) -> usize {
    card.columns as usize * card.rows as usize
}

/// A state is columns·rows heights, then (columns+1)·rows eastward velocities, then columns·(rows+1) northward velocities.
pub fn state_length(card: &Card) -> usize {
    let (columns, rows) = (card.columns as usize, card.rows as usize);
    columns * rows + (columns + 1) * rows + columns * (rows + 1)
}

/// The sum of all heights of a state; of a list that is too short for the card, of what there is.
pub fn sum_of_heights(card: &Card, state: &[i32]) -> i128 {
    state.iter().take(cells(card)).map(|&height| i128::from(height)).sum()
}

/// A card with its ground and its state, read by column and row. Cell (i, j) has the eastward faces i (west) and i + 1 (east) of
/// row j, and the northward faces j (south) and j + 1 (north) of column i.
#[derive(Clone, Copy)]
pub struct Site<'a> {
    pub card: Card,
    pub ground: &'a [i32],
    pub state: &'a [i32],
}

impl Site<'_> {
    pub fn columns(&self) -> usize {
        self.card.columns as usize
    }

    pub fn rows(&self) -> usize {
        self.card.rows as usize
    }

    pub fn ground(&self, i: usize, j: usize) -> i128 {
        self.ground[j * self.columns() + i].into()
    }

    pub fn height(&self, i: usize, j: usize) -> i128 {
        self.state[j * self.columns() + i].into()
    }

    pub fn cell(&self, i: usize, j: usize) -> Cell {
        Cell { height: self.height(i, j), ground: self.ground(i, j) }
    }

    pub fn east(&self, i: usize, j: usize) -> i128 {
        self.state[cells(&self.card) + j * (self.columns() + 1) + i].into()
    }

    pub fn north(&self, i: usize, j: usize) -> i128 {
        let behind = cells(&self.card) + (self.columns() + 1) * self.rows();
        self.state[behind + j * self.columns() + i].into()
    }

    /// Ground, heights and velocities in range, velocities 0 on the outer walls.
    pub fn values_fit(&self) -> bool {
        let (heights, velocities) = self.state.split_at(cells(&self.card));
        let (columns, rows) = (self.columns(), self.rows());
        self.ground.iter().all(|z| GROUNDS.contains(z))
            && heights.iter().all(|h| HEIGHTS.contains(h))
            && velocities.iter().all(|v| VELOCITIES.contains(v))
            && (0..rows).all(|j| self.east(0, j) == 0 && self.east(columns, j) == 0)
            && (0..columns).all(|i| self.north(i, 0) == 0 && self.north(i, rows) == 0)
    }

    pub fn lengths_fit(&self) -> bool {
        self.ground.len() == cells(&self.card) && self.state.len() == state_length(&self.card)
    }
}

pub fn card_fits(card: &Card) -> bool {
    (1..=128).contains(&card.columns)
        && (1..=128).contains(&card.rows)
        && (100_000..=20_000_000).contains(&card.dx)
        && (100_000..=20_000_000).contains(&card.dy)
        && (1..=1_000).contains(&card.dt)
        && card.steps <= 10_000
}

/// The lowest of 1, 2 and 3 that applies, or 0. What a call lends beside ground and state is asked of `more_lengths` and
/// `more_values`; values are looked at only where all lengths are right.
pub fn check_with(site: &Site, more_lengths: bool, more_values: impl FnOnce() -> bool) -> u32 {
    if !card_fits(&site.card) {
        1
    } else if !(site.lengths_fit() && more_lengths) {
        2
    } else if !(site.values_fit() && more_values()) {
        3
    } else {
        0
    }
}

/// The first three checks of card, ground and state alone.
pub fn check(site: &Site) -> u32 {
    check_with(site, true, || true)
}
