//! Each refusal on both sides of its boundary, float by float, and the kinds.

use super::{beside, not_a_number, FEET, METRES, TOP, UNITS};
use crate::library;
use crate::trials::{single, trials};
use water::raw::Staff;

const SIGN: u64 = 1 << 63;

/// A value of any kind: 0 passes it over, 1 and 2 read it or refuse it, all others refuse it.
fn assert_kind(kind: u32, value: f64) {
    match kind {
        0 => assert_eq!(library::staff(kind, value), Staff { number: 0, read: 0, height: 0 }, "{value:e}"),
        1 => drop(METRES.read(value)),
        2 => drop(FEET.read(value)),
        _ => assert_eq!(library::staff(kind, value), Staff { number: 3, read: 0, height: 0 }, "kind {kind}, {value:e}"),
    }
}

/// Three kinds are known; no other is one of them by its low bits.
#[test]
fn kinds() {
    let alike = (8..32).flat_map(|bit| [0, 1, 2].map(|kind| kind | 1 << bit));
    for kind in (0..=5).chain([6, 7, 255]).chain(alike).chain([i32::MAX as u32, u32::MAX - 1, u32::MAX]) {
        for value in [0.0, -0.0, 1.5, 50.0, 164.0, -1.0, 1e300, f64::INFINITY].into_iter().chain(not_a_number()) {
            assert_kind(kind, value);
        }
    }
}

#[test]
fn random_kinds() {
    let (mut known, mut unknown) = (0, 0);
    trials("staff kinds", 5_000, |rng| {
        let kind = (rng.next() as u32).checked_shr(rng.below(33) as u32).unwrap_or(0);
        assert_kind(kind, METRES.any(rng));
        *(if kind <= 2 { &mut known } else { &mut unknown }) += 1;
    });
    println!("staff kinds: {known} known, {unknown} unknown");
    assert!(single() || (known > 300 && unknown > 3_000));
}

/// Both noughts and all above pass, the first below is refused.
#[test]
fn nought_on_both_sides() {
    for unit in &UNITS {
        for place in 0..300 {
            assert_eq!(unit.read(f64::from_bits(place)), Some(0));
            assert_eq!(unit.read(f64::from_bits(SIGN | place)), if place == 0 { Some(0) } else { None });
        }
    }
}

/// Up to the greatest value all pass, and from the next one on none does.
#[test]
fn the_top_on_both_sides() {
    for unit in &UNITS {
        for place in -300..=300 {
            assert_eq!(unit.read(beside(unit.greatest, place)), if place <= 0 { Some(TOP) } else { None }, "{place}");
        }
    }
}

/// The last finite floats and the first that are not, of both signs.
#[test]
fn the_end_of_what_is_finite() {
    for unit in &UNITS {
        for place in -300..=300 {
            let value = beside(f64::INFINITY, place);
            assert_eq!(value.is_finite(), place < 0);
            assert_eq!((unit.read(value), unit.read(-value)), (None, None), "{place}");
        }
    }
}

/// Every exponent with both signs, and with its first, its middle and its last fractions.
#[test]
fn every_exponent() {
    const LAST: u64 = (1 << 52) - 1;
    for unit in &UNITS {
        for exponent in 0..0x800 {
            for fraction in [0, 1, 2, LAST / 2, LAST / 2 + 1, LAST / 2 + 2, LAST - 1, LAST] {
                let bits = exponent << 52 | fraction;
                let value = f64::from_bits(bits);
                assert_eq!(unit.read(value).is_some(), value <= unit.greatest, "{bits:#x}");
                assert_eq!(unit.read(f64::from_bits(SIGN | bits)).is_some(), bits == 0, "{bits:#x}");
            }
        }
    }
}
