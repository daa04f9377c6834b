//! Staff readings, by the machine's floats.

use water::{Reading, Refusal};

/// It has the shape of the wrapper's call.
pub fn staff(reading: Reading) -> Result<Option<i32>, Refusal> {
    let (value, factor) = match reading {
        Reading::Metres(metres) => (metres, 1_000_000.0),
        Reading::Feet(feet) => (feet, 304_800.0),
        Reading::Nothing => return Ok(None),
    };
    let product = value * factor;
    // a NaN is in no range
    if !(value >= 0.0 && product <= 50_000_000.0) {
        return Err(Refusal::Value);
    }
    // what is left above the whole number is exact; with 0.5 added, the product would be rounded again
    let whole = product as i32;
    let rest = product - f64::from(whole);
    Ok(Some(whole + i32::from(rest >= 0.5)))
}
