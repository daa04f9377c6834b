//! Staff readings, document 02's [1]: numbers by hand, each refusal on both sides of its boundary, random floats of every sort, and the
//! wrapper's enum. Every reading is held to the model (library.rs), which multiplies no floats; floats/staff.rs does.

mod boundary;
mod numbers;
mod random;
mod wrapped;

use crate::library;
use crate::rng::Rng;
use water::raw::{Staff, WATER_FEET, WATER_METRES};

const TOP: i32 = 50_000_000;

/// Metres or feet: the kind, how many micrometres one has, and the greatest value that passes.
pub struct Unit {
    pub kind: u32,
    pub factor: f64,
    greatest: f64,
}

const METRES: Unit = Unit { kind: WATER_METRES, factor: 1_000_000.0, greatest: 50.0 };
const FEET: Unit = Unit { kind: WATER_FEET, factor: 304_800.0, greatest: 164.041_994_750_656_16 };
pub const UNITS: [Unit; 2] = [METRES, FEET];

impl Unit {
    /// The height of a reading; none where it is refused, which is with 3 and without a height.
    pub fn read(&self, value: f64) -> Option<i32> {
        let answer = library::staff(self.kind, value);
        if answer == (Staff { number: 3, read: 0, height: 0 }) {
            return None;
        }
        assert_eq!((answer.number, answer.read), (0, 1), "{value:e}");
        assert!((0..=TOP).contains(&answer.height), "{value:e}");
        Some(answer.height)
    }

    /// A value of any sort, many of them in range.
    pub fn any(&self, rng: &mut Rng) -> f64 {
        let few = rng.between(-3, 3);
        match rng.below(8) {
            // any bits at all
            0 => f64::from_bits(rng.next()),
            // any fraction with an exponent from 2^-60 to 2^8
            1 | 2 => f64::from_bits((963 + rng.below(68)) << 52 | rng.next() >> 12),
            // close to a half, and close to a whole number
            3 | 4 => beside((rng.scaled(1, 50_010_000) as f64 - 0.5) / self.factor, few),
            5 => beside(rng.scaled(1, 50_010_000) as f64 / self.factor, few),
            // close to the greatest
            6 => beside(self.greatest, rng.pick(&[few, 1_000 * few, few << 30])),
            // as typed, to the millimetre; a few are below 0
            _ => rng.between(-10_000, 200_000) as f64 / 1_000.0,
        }
    }
}

/// The float so many places above one that is above 0, or below it.
fn beside(value: f64, places: i64) -> f64 {
    f64::from_bits((value.to_bits() as i64 + places) as u64)
}

/// Floats that are no numbers: quiet, signalling, negative, with something in their bits.
fn not_a_number() -> [f64; 8] {
    [
        0x7ff8_0000_0000_0000,
        0x7ff0_0000_0000_0001,
        0x7ff4_0000_0000_0000,
        0x7ff8_dead_beef_0001,
        0x7fff_ffff_ffff_ffff,
        0xfff8_0000_0000_0000,
        0xfff0_0000_0000_0001,
        0xffff_ffff_ffff_ffff,
    ]
    .map(f64::from_bits)
}
