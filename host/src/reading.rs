//! What an inspector reads off a gauge staff and types.

use crate::raw::{WATER_FEET, WATER_METRES, WATER_NOTHING};

/// A staff reading as it was typed. [`crate::calls::staff`] gives its height in micrometres, and says what is rounded how.
///
/// ```
/// use water::{calls, Reading};
/// let typed = [Reading::Metres(1.5), Reading::Nothing, Reading::Feet(1.0)];
/// assert_eq!(typed.map(calls::staff), [Ok(Some(1_500_000)), Ok(None), Ok(Some(304_800))]);
/// ```
#[derive(Clone, Copy, Debug, PartialEq)]
pub enum Reading {
    /// so many metres, 0 to 50
    Metres(f64),
    /// so many feet of 304,800 micrometres, 0 to 164.04199475065616
    Feet(f64),
    /// no reading: there is no height
    Nothing,
}

impl Reading {
    /// The kind and the value that the library's call takes; where nothing was read it does not look at the value.
    pub(crate) fn kind_and_value(self) -> (u32, f64) {
        match self {
            Reading::Metres(metres) => (WATER_METRES, metres),
            Reading::Feet(feet) => (WATER_FEET, feet),
            Reading::Nothing => (WATER_NOTHING, 0.0),
        }
    }
}
