//! The two crews.

use crate::refusal::Refusal;

/// One of the two crews.
///
/// ```
/// use pins::{Crew, Refusal};
/// assert_eq!(Crew::BOTH.map(Crew::number), [1, 2]);
/// assert_eq!(Crew::One.other(), Crew::Two);
/// assert_eq!(Crew::try_from(2), Ok(Crew::Two));
/// assert_eq!(Crew::try_from(0), Err(Refusal::Crew));
/// ```
#[derive(Clone, Copy, Debug, PartialEq, Eq, PartialOrd, Ord, Hash)]
pub enum Crew {
    /// crew 1
    One = 1,
    /// crew 2
    Two = 2,
}

impl Crew {
    /// Crew 1 and crew 2.
    pub const BOTH: [Crew; 2] = [Crew::One, Crew::Two];

    /// The number by which a call knows it.
    pub fn number(self) -> u32 {
        self as u32
    }

    /// The other crew.
    pub fn other(self) -> Crew {
        match self {
            Crew::One => Crew::Two,
            Crew::Two => Crew::One,
        }
    }
}

impl From<Crew> for u32 {
    fn from(crew: Crew) -> u32 {
        crew.number()
    }
}

impl TryFrom<u32> for Crew {
    type Error = Refusal;

    fn try_from(number: u32) -> Result<Crew, Refusal> {
        match number {
            1 => Ok(Crew::One),
            2 => Ok(Crew::Two),
            _ => Err(Refusal::Crew),
        }
    }
}
