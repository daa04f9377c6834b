//! Tables that no calls made: any words at all, words that look like pins, good tables with one word spoilt, a pin twice, too many of a
//! crew's. Every answer and every word is the model's.

use crate::given::Given;
use crate::library;
use crate::model::{self, pin, Fault};
use crate::rng::Rng;
use crate::tables;
use crate::trials::{single, trials};

/// A table of any sort.
fn wild(rng: &mut Rng) -> Vec<u32> {
    match rng.below(8) {
        // any words
        0 => (0..64).map(|_| rng.next() as u32).collect(),
        // words that look like pins, some of which are
        1 => (0..64).map(|_| if rng.percent(50) { 0 } else { pin(rng.below(4) as u32, rng.below(1_100) as u32) }).collect(),
        // pins of known crews on few chambers, and few pins
        2 => {
            let many = rng.pick(&[50, 1_000]);
            (0..64).map(|_| if rng.percent(90) { 0 } else { pin(rng.between(1, 2) as u32, rng.below(many) as u32) }).collect()
        }
        // more than 32 of a crew's
        3 => {
            let (most, rest) = (33 + rng.below(32) as usize, rng.below(32) as usize);
            let (one, two) = (most, rest.min(64 - most));
            if rng.percent(50) {
                tables::table(rng, one, two)
            } else {
                tables::table(rng, two, one)
            }
        }
        4 | 5 => {
            let good = tables::any(rng);
            tables::spoilt(rng, &good)
        }
        _ => tables::any(rng),
    }
}

/// A crew and a chamber, often those of a word that stands there, right or wrong.
fn asked(rng: &mut Rng, table: &[u32]) -> (u32, u32) {
    let word = if table.is_empty() { 0 } else { rng.pick(table) };
    let crew = match rng.below(20) {
        0 => rng.pick(&tables::UNKNOWN),
        1..=6 => word >> 16,
        _ => rng.between(1, 2) as u32,
    };
    let chamber = match rng.below(20) {
        0 => rng.pick(&tables::NO_CHAMBER),
        1..=9 => word & 0xffff,
        _ => rng.below(1_000) as u32,
    };
    (crew, chamber)
}

#[test]
fn tables_of_every_sort() {
    let (mut adds, mut removes, mut listings) = (Given::default(), Given::default(), Given::default());
    // tables whose only fault is this one
    let mut alone = [(Fault::Crew, 0u64), (Fault::Chamber, 0), (Fault::Twice, 0), (Fault::Over, 0)];
    trials("hostile", 25_000, |rng| {
        let mut table = wild(rng);
        for (fault, times) in &mut alone {
            *times += u64::from(model::faults(&table).into_iter().eq([*fault]));
        }
        if rng.percent(4) {
            table = tables::cut(rng, &table);
        }
        let mut found = tables::found(rng);
        if rng.percent(3) {
            found.resize(rng.pick(&[0, 31, 33]), 1);
        }
        let (crew, _) = asked(rng, &table);
        listings.count(library::list(rng, &table, crew, &mut found).number);
        let (crew, chamber) = asked(rng, &table);
        adds.count(library::add(rng, &mut table.clone(), crew, chamber));
        let (crew, chamber) = asked(rng, &table);
        removes.count(library::remove(rng, &mut table, crew, chamber));
    });
    adds.assert_often("hostile adds", &[0, 2, 3, 11, 12, 13, 14], 150);
    removes.assert_often("hostile removes", &[0, 2, 3, 11, 12, 13], 150);
    listings.assert_often("hostile listings", &[0, 2, 3, 11], 150);
    println!("hostile: tables with one fault alone: {alone:?}");
    assert!(single() || alone.iter().all(|(_, times)| *times > 500));
}

/// One word of a full table changed in any of its bits: good only where that makes another pin which is not there yet, or a free place.
#[test]
fn one_bit_of_a_full_table() {
    let (mut good, mut bad) = (0, 0);
    trials("one bit", 20, |rng| {
        let full = tables::table(rng, 32, 32);
        for (place, bit) in (0..64).flat_map(|place| (0..32).map(move |bit| (place, bit))) {
            let mut table = full.clone();
            table[place] ^= 1 << bit;
            let crew = rng.between(1, 2) as u32;
            let mut found = tables::found(rng);
            let number = library::list(rng, &table, crew, &mut found).number;
            *(if number == 0 { &mut good } else { &mut bad }) += 1;
        }
    });
    println!("one bit of a full table: {good} good, {bad} refused");
    assert!(single() || (good > 5_000 && bad > 5_000));
}
