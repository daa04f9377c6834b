//! Pumps by column and row, and the words that a call is lent for them.

use crate::raw::Card;

/// A pump or an inlet on one cell of a site: the cell's column, counted from the west, its row, counted from the south, and how many
/// micrometres a step it takes away (below 0) or lets in (above 0), -1,000,000 to 1,000,000. It takes no more than is there.
///
/// A step or a run has up to 64 of them, several on one cell too. They act in the order of their list, before each step and as part of it:
/// [`crate::Site::run_with`].
#[derive(Clone, Copy, Debug, Default, PartialEq, Eq)]
pub struct Pump {
    pub column: u32,
    pub row: u32,
    pub amount: i32,
}

impl Pump {
    /// The cell's place in the ground's list. No column or row that the site has not stands for another cell: it gives a place that no site
    /// has, which the library refuses in its own order.
    fn cell(&self, card: &Card) -> i32 {
        card.cell(self.column, self.row).map_or(-1, |cell| i32::try_from(cell).expect("a site has at most 16,384 cells"))
    }
}

/// The most pumps that a call is lent, one too many: over 64 is refused with 1 whatever they are, so that no more need to be told.
const MOST: usize = 65;

/// A list of pumps as words, cell and amount by turns, on the stack.
pub(crate) struct Words {
    words: [i32; 2 * MOST],
    length: usize,
}

impl Words {
    /// The words for a site's card, which is in its range.
    pub(crate) fn of(card: &Card, pumps: &[Pump]) -> Words {
        let told = &pumps[..pumps.len().min(MOST)];
        let mut words = [0; 2 * MOST];
        for (place, pump) in words.chunks_exact_mut(2).zip(told) {
            place.copy_from_slice(&[pump.cell(card), pump.amount]);
        }
        Words { words, length: 2 * told.len() }
    }

    pub(crate) fn lent(&self) -> &[i32] {
        &self.words[..self.length]
    }
}
