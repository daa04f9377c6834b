//! "Run": the step repeated, pumps and all, with the tally that is handed from step to step.

use super::pumps::check_pumped;
use super::site::{cells, Site};
use super::step::{advance, Step};
use water::raw::{Card, Tally};

fn greatest(heights: &[i32]) -> i32 {
    *heights.iter().max().expect("a site has a cell")
}

/// The call. Reasons 1 to 3: steps, top, added and taken 0, both lists as lent. Otherwise the state holds the last accepted state, scratch
/// is all zero, and added and taken are over the accepted steps.
pub fn run(card: Card, ground: &[i32], state: &mut [i32], pumps: &[i32], scratch: &mut [i32]) -> Tally {
    let reason = check_pumped(&Site { card, ground, state }, pumps, scratch.len() == state.len());
    if reason != 0 {
        return Tally { steps: 0, reason, top: 0, added: 0, taken: 0 };
    }
    let mut tally = Tally { steps: 0, reason: 0, top: greatest(&state[..cells(&card)]), added: 0, taken: 0 };
    while tally.steps < card.steps {
        match advance(&Site { card, ground, state }, pumps) {
            Ok(Step { next, added, taken }) => {
                state.copy_from_slice(&next);
                tally.added += u64::try_from(added).expect("what is added is not below 0");
                tally.taken += u64::try_from(taken).expect("what is taken is not below 0");
            }
            Err(reason) => {
                tally.reason = reason;
                break;
            }
        }
        tally.steps += 1;
        tally.top = tally.top.max(greatest(&state[..cells(&card)]));
    }
    scratch.fill(0);
    tally
}
