//! Staff readings by the machine's own floats: its product, and what is left of it above a whole number, which is exact.

use crate::staff::{Unit, UNITS};
use crate::trials::{single, trials};

fn by_floats(unit: &Unit, value: f64) -> Option<i32> {
    let product = value * unit.factor;
    if !(value >= 0.0 && product <= 50_000_000.0) {
        // and so is what is no number
        return None;
    }
    let whole = product.floor();
    let up = product - whole >= 0.5;
    Some(whole as i32 + i32::from(up))
}

#[test]
fn readings_by_the_machines_floats() {
    let (mut read, mut refused) = (0, 0);
    trials("staff by floats", 20_000, |rng| {
        for unit in &UNITS {
            let value = unit.any(rng);
            let height = unit.read(value);
            assert_eq!(height, by_floats(unit, value), "{value:e}, kind {}", unit.kind);
            *(if height.is_some() { &mut read } else { &mut refused }) += 1;
        }
    });
    println!("staff by floats: {read} read, {refused} refused");
    assert!(single() || (read > 20_000 && refused > 4_000));
}
