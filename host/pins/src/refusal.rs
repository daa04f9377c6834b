//! Why a call refused: document 02's numbers as an enum.

use std::fmt;

/// A refusal, by the number that document 02 gives it ([`Refusal::number`]). Where several apply, the first in this order is given.
#[derive(Clone, Copy, Debug, PartialEq, Eq, Hash)]
pub enum Refusal {
    /// 2: a lent list has another length: the table not 64 words, or a listing's list not 32
    Length,
    /// 3: a bad table: a word that is neither 0 nor a pin of crew 1 or 2 on a chamber below 1,000, the same pin twice, or over 32 pins of one
    /// crew. The whole table is looked at, the other crew's pins too.
    Table,
    /// 11: an unknown crew, neither 1 nor 2
    Crew,
    /// 12: a chamber of 1,000 or above
    Chamber,
    /// 13, adding: this crew has that pin already
    Pinned,
    /// 13, removing: this crew has no such pin; the other crew's does not count
    NotPinned,
    /// 14: this crew has 32 pins
    Full,
}

impl Refusal {
    /// Document 02's number.
    pub fn number(self) -> u32 {
        match self {
            Refusal::Length => 2,
            Refusal::Table => 3,
            Refusal::Crew => 11,
            Refusal::Chamber => 12,
            Refusal::Pinned | Refusal::NotPinned => 13,
            Refusal::Full => 14,
        }
    }

    /// The refusal that a call's number stands for; none for 0, done. `at_13` is what 13 means to the call.
    pub(crate) fn of(number: u32, at_13: Refusal) -> Option<Refusal> {
        match number {
            0 => None,
            2 => Some(Refusal::Length),
            3 => Some(Refusal::Table),
            11 => Some(Refusal::Crew),
            12 => Some(Refusal::Chamber),
            13 => Some(at_13),
            14 => Some(Refusal::Full),
            _ => unreachable!("the calls give 0, 2, 3 and 11 to 14, and gave {number}"),
        }
    }
}

impl fmt::Display for Refusal {
    fn fmt(&self, f: &mut fmt::Formatter<'_>) -> fmt::Result {
        f.write_str(match self {
            Refusal::Length => "a list of the wrong length (2)",
            Refusal::Table => "a table with an unknown crew, a bad chamber, a pin twice or over 32 pins of a crew (3)",
            Refusal::Crew => "an unknown crew (11)",
            Refusal::Chamber => "a chamber of 1,000 or above (12)",
            Refusal::Pinned => "already pinned by this crew (13)",
            Refusal::NotPinned => "not pinned by this crew (13)",
            Refusal::Full => "this crew has 32 pins (14)",
        })
    }
}

impl std::error::Error for Refusal {}
