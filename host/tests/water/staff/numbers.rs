//! Staff readings on numbers: those of the request, and those that a shortcut would get wrong.

use super::{beside, not_a_number, FEET, METRES, TOP, UNITS};
use crate::library;
use water::raw::{Staff, WATER_NOTHING};

const LEAST: f64 = f64::MIN_POSITIVE * f64::EPSILON;

#[test]
fn the_requests_own() {
    assert_eq!(METRES.read(1.5), Some(1_500_000));
    assert_eq!(FEET.read(1.0), Some(304_800));
    for unit in &UNITS {
        assert_eq!(unit.read(-0.0), Some(0));
        assert_eq!(unit.read(0.0), Some(0));
    }
}

/// No reading gives no height, whatever stands beside it.
#[test]
fn no_reading() {
    let odd = [0.0, -0.0, 1.5, -1.5, 1e300, f64::INFINITY, f64::NEG_INFINITY];
    for value in odd.into_iter().chain(not_a_number()) {
        assert_eq!(library::staff(WATER_NOTHING, value), Staff { number: 0, read: 0, height: 0 }, "{value}");
    }
}

#[test]
fn whole_metres_and_feet() {
    for whole in 0..=50 {
        assert_eq!(METRES.read(whole.into()), Some(1_000_000 * whole));
    }
    for whole in 0..=164 {
        assert_eq!(FEET.read(whole.into()), Some(304_800 * whole));
    }
    assert_eq!((METRES.read(51.0), FEET.read(165.0)), (None, None));
}

/// As typed: no float is exactly so much, and each gives the micrometres that were meant.
#[test]
fn decimals() {
    for (metres, height) in
        [(0.1, 100_000), (0.123_456, 123_456), (1.234_567, 1_234_567), (12.34, 12_340_000), (49.999_999, 49_999_999)]
    {
        assert_eq!(METRES.read(metres), Some(height));
    }
    for (feet, height) in [(0.1, 30_480), (4.9, 1_493_520), (5.3, 1_615_440), (99.99, 30_476_952), (164.04, 49_999_392)] {
        assert_eq!(FEET.read(feet), Some(height));
    }
    // 0.01 ft is 3,048 µm, 0.001 ft 304.8, 0.0001 ft 30.48, 0.00001 ft 3.048
    assert_eq!([0.01, 0.001, 0.000_1, 0.000_01].map(|feet| FEET.read(feet)), [Some(3_048), Some(305), Some(30), Some(3)]);
}

/// The greatest value has a product of exactly 50,000,000; the next one is refused, and the one before goes up.
#[test]
fn the_greatest() {
    assert_eq!((50.0 * 1_000_000.0, 164.041_994_750_656_16 * 304_800.0), (f64::from(TOP), f64::from(TOP)));
    for unit in &UNITS {
        assert_eq!(unit.read(beside(unit.greatest, -1)), Some(TOP));
        assert_eq!(unit.read(unit.greatest), Some(TOP));
        assert_eq!(unit.read(beside(unit.greatest, 1)), None);
    }
}

/// A product above the top is refused although it would go down to it: a hundred-millionth of a micrometre is too much, and so is 0.4.
#[test]
fn products_that_would_go_down_into_range() {
    for (metres, product) in
        [(50.000_000_000_000_01, 50_000_000.000_000_01), (50.000_000_4, 50_000_000.4), (50.000_000_5, 50_000_000.5)]
    {
        assert_eq!(metres * 1_000_000.0, product);
        assert_eq!(METRES.read(metres), None, "{metres}");
    }
    for (feet, product) in [(164.041_994_750_656_2, 50_000_000.000_000_01), (164.041_996, 50_000_000.380_8)] {
        assert_eq!(feet * 304_800.0, product);
        assert_eq!(FEET.read(feet), None, "{feet}");
    }
}

/// Products that are exactly a half go up, and the next float below goes down.
#[test]
fn halves() {
    assert_eq!((METRES.read(1.0 / 128.0), METRES.read(3.0 / 128.0)), (Some(7_813), Some(23_438)));
    assert_eq!((FEET.read(1.0 / 64.0), FEET.read(3.0 / 64.0)), (Some(4_763), Some(14_288)));
    // a 128th of a metre is 15,625 halves, and a 64th of a foot 9,525
    for (unit, part, halves) in [(METRES, 128.0, 15_625), (FEET, 64.0, 9_525)] {
        for odd in [1, 3, 5, 7, 127, 1_001, 3_199, 6_399] {
            let (value, down) = (f64::from(odd) / part, halves * odd / 2);
            let around = [-1, 0, 1].map(|places| unit.read(beside(value, places)));
            assert_eq!(around, [Some(down), Some(down + 1), Some(down + 1)], "{value}");
        }
    }
}

/// No float here is exactly so many and a half micrometres, but its product rounds to that. It goes up, and the float before it goes down.
#[test]
fn products_that_round_to_a_half() {
    let metres = [(5e-7, 1), (1.5e-6, 2), (5.5e-6, 6), (5.05e-5, 51), (0.050_000_5, 50_001), (4.999_999_5, 5_000_000)];
    let more = [(2.499_999_999_999_999_8e-6, 3), (25.000_000_5, 25_000_001), (49.999_999_5, TOP)];
    for (value, height) in metres.into_iter().chain(more) {
        assert_eq!(value * 1_000_000.0, f64::from(height) - 0.5);
        assert_eq!((METRES.read(beside(value, -1)), METRES.read(value)), (Some(height - 1), Some(height)), "{value}");
    }
    let feet = [(1.640_419_947_506_561_7e-6, 1), (4.921_259_842_519_685e-6, 2), (8.202_099_737_532_808e-6, 3)];
    let more = [(0.164_043_635_170_603_66, 50_001), (1.640_421_587_926_509_2, 500_001), (82.020_999_015_748_03, 25_000_001)];
    for (value, height) in feet.into_iter().chain(more) {
        assert_eq!(value * 304_800.0, f64::from(height) - 0.5);
        assert_eq!((FEET.read(beside(value, -1)), FEET.read(value)), (Some(height - 1), Some(height)), "{value}");
    }
}

/// Half a micrometre in metres is no float; the nearest is a little less, and its product is rounded up to 0.5 before that goes to 1.
#[test]
fn half_a_micrometre() {
    assert_eq!([-1, 0, 1].map(|places| METRES.read(beside(0.000_000_5, places))), [Some(0), Some(1), Some(1)]);
}

/// The float before a half goes down; adding 0.5 to it would make 1.
#[test]
fn just_below_a_half() {
    let (value, product) = (1.640_419_947_506_561_5e-6, 0.499_999_999_999_999_94);
    assert_eq!((value * 304_800.0, product + 0.5), (product, 1.0));
    assert_eq!(FEET.read(value), Some(0));
}

/// The smallest floats: above 0 they are nothing to see, below 0 they are refused.
#[test]
fn the_smallest() {
    assert_eq!(LEAST.to_bits(), 1);
    for unit in &UNITS {
        for small in [LEAST, 2.0 * LEAST, beside(f64::MIN_POSITIVE, -1), f64::MIN_POSITIVE, 1e-300, 1e-20] {
            assert_eq!((unit.read(small), unit.read(-small)), (Some(0), None), "{small:e}");
        }
    }
}

/// Products that overflow, and the last that do not, are above; so is what is not finite.
#[test]
fn the_largest_and_what_is_not_finite() {
    for unit in &UNITS {
        let last = f64::MAX / unit.factor;
        for large in [1e9, 1e300, beside(last, -2), last, beside(last, 2), beside(f64::MAX, -1), f64::MAX, f64::INFINITY] {
            assert_eq!((unit.read(large), unit.read(-large)), (None, None), "{large:e}");
        }
        for odd in not_a_number() {
            assert_eq!(unit.read(odd), None, "{:#x}", odd.to_bits());
        }
    }
}
