//! "Staff readings", document 02's [1]. No float is multiplied, compared or rounded here: a value is taken apart into whole numbers, and its
//! product is made of them.

use super::site::HEIGHTS;
use water::raw::Staff;

/// How many bits a float keeps, and the least power of two that one has.
const KEPT: i32 = 53;
const LEAST: i32 = -1074;

/// whole · 2^power
#[derive(Clone, Copy)]
struct Scaled {
    whole: u128,
    power: i32,
}

/// A finite float's sign, true below 0 and of -0.0, and its size; none if it is not finite.
fn taken_apart(value: f64) -> Option<(bool, Scaled)> {
    let bits = value.to_bits();
    let exponent = (bits >> 52 & 0x7ff) as i32;
    let fraction = u128::from(bits & ((1 << 52) - 1));
    let size = match exponent {
        0x7ff => return None,
        0 => Scaled { whole: fraction, power: LEAST },
        _ => Scaled { whole: fraction + (1 << 52), power: exponent - 1075 },
    };
    Some((bits >> 63 == 1, size))
}

impl Scaled {
    fn bits(self) -> i32 {
        128 - self.whole.leading_zeros() as i32
    }

    /// The nearest float, and of two as near the even one; none if that is 2^1024 or more.
    fn rounded(self) -> Option<Scaled> {
        // a whole factor leaves no power below the least
        let dropped = (self.bits() - KEPT).max(0);
        let unit = 1 << dropped;
        let (kept, rest) = (self.whole / unit, self.whole % unit);
        let up = 2 * rest > unit || (2 * rest == unit && kept % 2 == 1);
        let float = Scaled { whole: kept + u128::from(up), power: self.power + dropped };
        (float.bits() + float.power <= 1024).then_some(float)
    }

    /// The nearest whole number, halves up; none above 50,000,000. It is asked of floats.
    fn height(self) -> Option<i32> {
        if self.power >= 0 {
            // a float with such a power has all its bits, and is 2^52 or more
            return None;
        }
        // all bits of a float at 2^-100 or below are far less than a half, so that no lower power need be told apart
        let unit = 1 << (-self.power).min(100);
        let most = *HEIGHTS.end() as u128;
        (self.whole <= most * unit).then(|| ((2 * self.whole + unit) / (2 * unit)) as i32)
    }
}

/// The height of so many times the factor; none where it is refused.
fn height(value: f64, factor: u128) -> Option<i32> {
    let (negative, size) = taken_apart(value)?;
    if negative && size.whole > 0 {
        return None;
    }
    // of 53 bits and 20
    let exact = Scaled { whole: size.whole * factor, ..size };
    exact.rounded()?.height()
}

/// The call: kind 0 is no reading, 1 metres, 2 feet.
pub fn staff(kind: u32, value: f64) -> Staff {
    let factor = match kind {
        0 => return Staff { number: 0, read: 0, height: 0 },
        1 => Some(1_000_000),
        2 => Some(304_800),
        _ => None,
    };
    match factor.and_then(|factor| height(value, factor)) {
        Some(height) => Staff { number: 0, read: 1, height },
        None => Staff { number: 3, read: 0, height: 0 },
    }
}
