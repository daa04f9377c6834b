//! Pumps: their checks, and what they do to heights in place, with what it takes to undo it.

use super::site::cells;
use water::raw::Card;

const MOST: usize = 64;

/// 1 for over 64, 2 for a word left over, 3 for a cell or an amount that does not fit, or 0. The last is asked of a card that is in its range.
pub fn check(card: &Card, pumps: &[i32]) -> u32 {
    let fits = |pump: &[i32]| (pump[0] as u32 as usize) < cells(card) && pump[1].unsigned_abs() <= 1_000_000;
    if pumps.len() / 2 > MOST {
        1
    } else if pumps.len() % 2 == 1 {
        2
    } else if !pumps.chunks_exact(2).all(fits) {
        3
    } else {
        0
    }
}

/// How much pumps added and took.
#[derive(Default)]
pub struct Moved {
    pub added: u64,
    pub taken: u64,
}

/// The height that each pump found at its turn: made once, and used again for each list.
pub struct Turns {
    found: [i32; MOST],
    had: usize,
}

impl Turns {
    pub fn new() -> Turns {
        Turns { found: [0; MOST], had: 0 }
    }

    /// All pumps of a list that was checked; none where an inlet takes its cell past the top, and there the pumps before it have acted.
    pub fn pump(&mut self, heights: &mut [i32], pumps: &[i32]) -> Option<Moved> {
        let mut moved = Moved::default();
        self.had = 0;
        for pump in pumps.chunks_exact(2) {
            let height = &mut heights[pump[0] as usize];
            let (found, amount) = (*height, pump[1]);
            let after = (found + amount).max(0);
            if after > 50_000_000 {
                return None;
            }
            if amount > 0 {
                moved.added += amount as u64;
            } else {
                moved.taken += (found - after) as u64;
            }
            *height = after;
            self.found[self.had] = found;
            self.had += 1;
        }
        Some(moved)
    }

    /// The heights as the last list's pumps found them, the last pump first.
    pub fn undo(&self, heights: &mut [i32], pumps: &[i32]) {
        for (pump, &found) in pumps.chunks_exact(2).zip(&self.found[..self.had]).rev() {
            heights[pump[0] as usize] = found;
        }
    }
}
