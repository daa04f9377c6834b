//! Pumps and inlets, as document 02's [10] has them: they act in list order before the step, as part of it.

use super::site::{cells, check_with, Site};
use water::raw::Card;

/// Below 0 the amount is taken away, above 0 it is let in.
struct Pump {
    cell: i128,
    amount: i128,
}

/// The pumps of a list of words, cell and amount by turns; a word that is left over is no pump.
fn listed(words: &[i32]) -> impl Iterator<Item = Pump> + '_ {
    words.chunks_exact(2).map(|word| Pump { cell: word[0].into(), amount: word[1].into() })
}

impl Pump {
    /// The site has the cell, and the amount is in its range.
    fn fits(&self, card: &Card) -> bool {
        (0..cells(card) as i128).contains(&self.cell) && (-1_000_000..=1_000_000).contains(&self.amount)
    }
}

/// The lowest of 1, 2 and 3 that applies, or 0: of card, ground and state, of the length of one more list, and of pumps. Over 64 of them
/// are 1, a word left over is 2, a pump that does not fit is 3.
pub fn check_pumped(site: &Site, pumps: &[i32], more_lengths: bool) -> u32 {
    if listed(pumps).count() > 64 {
        return 1;
    }
    let whole = pumps.len() % 2 == 0;
    check_with(site, more_lengths && whole, || listed(pumps).all(|pump| pump.fits(&site.card)))
}

/// What pumps make of a state, and how much water they moved.
#[derive(Debug, PartialEq)]
pub struct Pumped {
    pub state: Vec<i32>,
    pub added: i128,
    pub taken: i128,
}

/// All pumps of a list, each on what the ones before it left; none if an inlet takes its cell past 50,000,000 at its turn.
pub fn pumped(pumps: &[i32], state: &[i32]) -> Option<Pumped> {
    let mut all = Pumped { state: state.to_vec(), added: 0, taken: 0 };
    for Pump { cell, amount } in listed(pumps) {
        let height = &mut all.state[cell as usize];
        let there = i128::from(*height);
        let after = if amount > 0 {
            all.added += amount;
            there + amount
        } else {
            // no more than is there
            let taken = (-amount).min(there);
            all.taken += taken;
            there - taken
        };
        if after > 50_000_000 {
            return None;
        }
        *height = after as i32;
    }
    Some(all)
}
