//! The wrapper's readings: each is lent as its own kind, with its value as it is.

use super::UNITS;
use crate::model;
use crate::trials::{single, trials};
use water::{calls, Reading, Refusal};

#[test]
fn each_reading_is_its_own_kind() {
    assert_eq!(calls::staff(Reading::Metres(1.0)), Ok(Some(1_000_000)));
    assert_eq!(calls::staff(Reading::Feet(1.0)), Ok(Some(304_800)));
    assert_eq!(calls::staff(Reading::Nothing), Ok(None));
    // read, and 0: not the same as no reading
    assert_eq!(calls::staff(Reading::Metres(0.0)), Ok(Some(0)));
    assert_eq!(calls::staff(Reading::Feet(-0.0)), Ok(Some(0)));
    for refused in [f64::NAN, f64::INFINITY, -1e-300, 200.0] {
        assert_eq!(calls::staff(Reading::Metres(refused)), Err(Refusal::Value));
        assert_eq!(calls::staff(Reading::Feet(refused)), Err(Refusal::Value));
    }
    assert_ne!(Reading::Metres(1.0), Reading::Feet(1.0));
    assert_ne!(Reading::Metres(0.0), Reading::Nothing);
}

#[test]
fn readings_as_the_model() {
    let (mut read, mut refused) = (0, 0);
    trials("wrapped staff", 10_000, |rng| {
        let kind = rng.between(0, 2) as u32;
        let value = UNITS[rng.below(2) as usize].any(rng);
        let reading = match kind {
            0 => Reading::Nothing,
            1 => Reading::Metres(value),
            _ => Reading::Feet(value),
        };
        let expected = model::staff(kind, value);
        match calls::staff(reading) {
            Ok(height) => {
                assert_eq!((0, height), (expected.number, (expected.read == 1).then_some(expected.height)), "{reading:?}")
            }
            Err(refusal) => assert_eq!(refusal.number(), expected.number, "{reading:?}"),
        }
        read += expected.read;
        refused += u32::from(expected.number == 3);
    });
    println!("wrapped staff: {read} read, {refused} refused");
    assert!(single() || (read > 3_000 && refused > 1_000));
}
