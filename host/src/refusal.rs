//! Why a call refused: document 01's numbers as an enum.

use std::fmt;

/// A refusal, by the number that document 01 gives it ([`Refusal::number`]). 6 is unused: document 01 gave it to a negative own share, and
/// no site that keeps the step limit has one (request 7 of document 02).
#[derive(Clone, Copy, Debug, PartialEq, Eq)]
pub enum Refusal {
    /// 1: columns, rows, a side, dt or steps wanted outside its range, or over 64 pumps
    Card,
    /// 2: a lent list has the wrong length (that of pumps an odd one), there are over 1,000 chambers, or the sides of a site differ whose
    /// raster is to be written
    Length,
    /// 3: a value outside its range, a wall velocity not 0, a pump's cell that the site has not, a window edge or a staff reading not
    /// finite, or a raster's no-data value among its heights. Ground is -50,000,000 to 50,000,000 micrometres, a height and a search's depth
    /// 0 to 50,000,000, a velocity -20,000,000 to 20,000,000 micrometres a second, a pump's amount -1,000,000 to 1,000,000 micrometres, a
    /// staff reading 0 to 50,000,000 micrometres.
    Value,
    /// 4: some cell breaks the step limit: the velocities that point out of it would take more than it holds in one step. A dry cell
    /// counts too, and a velocity that points into a cell does not count there. A shorter time step helps.
    StepLimit,
    /// 5: some new height exceeds 50,000,000, or an inlet takes its cell past that at its turn, even if a later pump would take it back
    TooHigh,
    /// 7: some new velocity lies outside its range, -20,000,000 to 20,000,000 micrometres a second
    TooFast,
    /// 8: the lent room is too short, and how much is needed
    Room { needed: usize },
    /// 9: not a sheet of version 1, or its length field is not the bytes given
    Sheet,
    /// 10: not a raster: a key that is missing, wrong or in another place, a word that is no such number, over 12 digits before a point or
    /// over 6 behind it, or a wrong count of values
    Raster,
}

impl Refusal {
    /// Document 01's number.
    pub fn number(self) -> u32 {
        match self {
            Refusal::Card => 1,
            Refusal::Length => 2,
            Refusal::Value => 3,
            Refusal::StepLimit => 4,
            Refusal::TooHigh => 5,
            Refusal::TooFast => 7,
            Refusal::Room { .. } => 8,
            Refusal::Sheet => 9,
            Refusal::Raster => 10,
        }
    }

    /// The refusal that a call's number stands for; none for 0, done. `needed` is the room that an 8 asks for.
    pub(crate) fn of(number: u32, needed: usize) -> Option<Refusal> {
        match number {
            0 => None,
            1 => Some(Refusal::Card),
            2 => Some(Refusal::Length),
            3 => Some(Refusal::Value),
            4 => Some(Refusal::StepLimit),
            5 => Some(Refusal::TooHigh),
            7 => Some(Refusal::TooFast),
            8 => Some(Refusal::Room { needed }),
            9 => Some(Refusal::Sheet),
            10 => Some(Refusal::Raster),
            _ => unreachable!("the library gives 0 to 5 and 7 to 10, and gave {number}"),
        }
    }
}

impl fmt::Display for Refusal {
    fn fmt(&self, f: &mut fmt::Formatter<'_>) -> fmt::Result {
        match self {
            Refusal::Card => f.write_str("columns, rows, a side, dt or steps outside its range, or over 64 pumps (1)"),
            Refusal::Length => {
                f.write_str("a list of the wrong length, over 1,000 chambers, or a raster of a site whose sides differ (2)")
            }
            Refusal::Value => f.write_str(
                "a value outside its range, a wall velocity not 0, a pump's cell that the site has not, \
                 a window edge or a staff reading not finite, or a no-data value among heights (3)",
            ),
            Refusal::StepLimit => f.write_str("some cell breaks the step limit (4)"),
            Refusal::TooHigh => f.write_str("some new height, or one that an inlet makes, exceeds 50,000,000 (5)"),
            Refusal::TooFast => f.write_str("some new velocity lies outside its range (7)"),
            Refusal::Room { needed } => write!(f, "the lent room is too short, {needed} places are needed (8)"),
            Refusal::Sheet => f.write_str("not a sheet of version 1, or its length field is not the bytes given (9)"),
            Refusal::Raster => f.write_str("not a raster: its keys, its numbers or how many values it has (10)"),
        }
    }
}

impl std::error::Error for Refusal {}
