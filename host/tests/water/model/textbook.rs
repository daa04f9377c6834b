//! The textbook engine, from document 02's [5]: the paper's pressure and ground, (7c) and (7d), kept apart. All else is step.rs's; what a
//! face's slope is of is worked out here, and from no surface.

use super::bank::Pair;
use super::step::step_by;
use water::raw::Card;

/// A face's two terms after the step, both doubled so that they stay whole; gravity, time step and side come in afterwards, with S.
pub struct Terms {
    /// the difference of squared new heights: (11) of (7c)'s pressure
    pub pressure: i128,
    /// what the ground rises, times the mean height (17)
    pub ground: i128,
    /// H'
    pub new_sum: i128,
}

impl Terms {
    pub fn of(new: &Pair) -> Terms {
        let Pair { k, l } = new;
        let twice_the_mean = new.sum();
        Terms {
            pressure: l.height * l.height - k.height * k.height,
            ground: twice_the_mean * (l.ground - k.ground),
            new_sum: new.sum(),
        }
    }

    pub fn added(&self) -> i128 {
        self.pressure + self.ground
    }

    /// Both together over H', where that is above 0.
    pub fn quotient(&self) -> i128 {
        assert_eq!(self.added() % self.new_sum, 0, "the division leaves no rest");
        self.added() / self.new_sum
    }
}

/// The call: refused, the next state is as lent.
pub fn step_textbook(card: Card, ground: &[i32], state: &[i32], pumps: &[i32], next: &mut [i32]) -> u32 {
    step_by(|new| Terms::of(new).quotient(), card, ground, state, pumps, next)
}
