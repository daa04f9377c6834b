//! The first three checks.

use water::raw::Card;

const HEIGHT: i32 = 50_000_000;
const SPEED: u32 = 20_000_000;

pub fn cells(card: &Card) -> usize {
    card.columns as usize * card.rows as usize
}

pub fn state_length(card: &Card) -> usize {
    3 * cells(card) + card.columns as usize + card.rows as usize
}

pub fn card_fits(card: &Card) -> bool {
    (1..=128).contains(&card.columns)
        && (1..=128).contains(&card.rows)
        && (100_000..=20_000_000).contains(&card.dx)
        && (100_000..=20_000_000).contains(&card.dy)
        && (1..=1_000).contains(&card.dt)
        && card.steps <= 10_000
}

pub fn ground_fits(word: i32) -> bool {
    (-HEIGHT..=HEIGHT).contains(&word)
}

pub fn height_fits(word: i32) -> bool {
    (0..=HEIGHT).contains(&word)
}

pub fn speed_fits(word: i32) -> bool {
    word.unsigned_abs() <= SPEED
}

/// A test of every element that does not stop at the first that fails, so that it can be done many at a time.
pub fn all<T: Copy>(list: &[T], test: impl Fn(T) -> bool) -> bool {
    list.iter().fold(true, |fits, &element| fits & test(element))
}

pub fn values_fit(card: &Card, ground: &[i32], state: &[i32]) -> bool {
    let (columns, rows) = (card.columns as usize, card.rows as usize);
    let (heights, velocities) = state.split_at(columns * rows);
    let (east, north) = velocities.split_at((columns + 1) * rows);
    all(ground, ground_fits)
        && all(heights, height_fits)
        && all(velocities, speed_fits)
        && east.chunks_exact(columns + 1).all(|row| row[0] == 0 && row[columns] == 0)
        && all(&north[..columns], |velocity| velocity == 0)
        && all(&north[columns * rows..], |velocity| velocity == 0)
}

/// 1, 2, 3 or 0. What is lent beside ground and state is asked of `more_lengths`.
pub fn check(card: &Card, ground: &[i32], state: &[i32], more_lengths: bool) -> u32 {
    if !card_fits(card) {
        1
    } else if ground.len() != cells(card) || state.len() != state_length(card) || !more_lengths {
        2
    } else if !values_fit(card, ground, state) {
        3
    } else {
        0
    }
}
