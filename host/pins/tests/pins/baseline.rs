//! The benchmark's plain Rust held to the model, so that the ratio compares the same work, refusals and all.

#[path = "../../src/bin/bench/plain.rs"]
mod plain;

use crate::given::Given;
use crate::model;
use crate::tables;
use crate::trials::trials;

#[test]
fn plain_rust_as_the_model() {
    let (mut adds, mut removes, mut listings) = (Given::default(), Given::default(), Given::default());
    trials("plain", 10_000, |rng| {
        let good = tables::any(rng);
        let table = match rng.below(12) {
            0 => tables::cut(rng, &good),
            1 => tables::spoilt(rng, &good),
            2 => tables::table(rng, 30, 34),
            _ => good,
        };
        let crew = if rng.percent(10) { rng.pick(&tables::UNKNOWN) } else { rng.between(1, 2) as u32 };
        let chamber = match rng.below(10) {
            0 => rng.pick(&tables::NO_CHAMBER),
            1..=5 => table.first().map_or(0, |word| word % 65_536),
            _ => rng.below(1_000) as u32,
        };
        let (mut ours, mut expected) = (table.clone(), table.clone());
        let number = model::add(&mut expected, crew, chamber);
        assert_eq!((plain::add(&mut ours, crew, chamber), &ours), (number, &expected));
        adds.count(number);
        let (mut ours, mut expected) = (table.clone(), table.clone());
        let number = model::remove(&mut expected, crew, chamber);
        assert_eq!((plain::remove(&mut ours, crew, chamber), &ours), (number, &expected));
        removes.count(number);
        let mut found = tables::found(rng);
        if rng.percent(3) {
            found.resize(rng.pick(&[0, 31, 33]), 0);
        }
        let mut expected = found.clone();
        let listing = model::list(&table, crew, &mut expected);
        assert_eq!((plain::list(&table, crew, &mut found), &found), (listing, &expected));
        listings.count(listing.number);
    });
    adds.assert_often("plain adds", &[0, 2, 3, 11, 12, 13, 14], 100);
    removes.assert_often("plain removes", &[0, 2, 3, 11, 12, 13], 100);
    listings.assert_often("plain listings", &[0, 2, 3, 11], 100);
}
