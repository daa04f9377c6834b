//! The safe wrapper over the calls: typed refusals with the document's numbers, the two crews, and a table that owns its words.

use crate::given::Given;
use crate::model::{self, Sets};
use crate::rng::Rng;
use crate::tables;
use crate::trials::trials;
use pins::{calls, Crew, PinTable, Pins, Refusal};
use std::collections::HashSet;

/// The number of an answer, 0 if it was not refused.
fn number<T>(answer: &Result<T, Refusal>) -> u32 {
    match answer {
        Ok(_) => 0,
        Err(refusal) => refusal.number(),
    }
}

#[test]
fn every_refusal_has_its_number() {
    let refusals = [
        (2, Refusal::Length),
        (3, Refusal::Table),
        (11, Refusal::Crew),
        (12, Refusal::Chamber),
        (13, Refusal::Pinned),
        (13, Refusal::NotPinned),
        (14, Refusal::Full),
    ];
    for (number, refusal) in refusals {
        assert_eq!(refusal.number(), number);
        assert!(refusal.to_string().ends_with(&format!("({number})")), "{refusal}");
        let error: Box<dyn std::error::Error> = Box::new(refusal);
        assert_eq!(error.to_string(), refusal.to_string());
    }
    let texts: HashSet<String> = refusals.iter().map(|(_, refusal)| refusal.to_string()).collect();
    assert_eq!(texts.len(), refusals.len());
}

#[test]
fn crews_and_their_numbers() {
    for (number, crew) in [(1, Crew::One), (2, Crew::Two)] {
        assert_eq!((crew.number(), u32::from(crew), Crew::try_from(number)), (number, number, Ok(crew)));
        assert_eq!((crew.other().number(), crew.other().other()), (3 - number, crew));
    }
    for unknown in tables::UNKNOWN {
        assert_eq!(Crew::try_from(unknown), Err(Refusal::Crew));
    }
    assert_eq!(Crew::BOTH, [Crew::One, Crew::Two]);
}

/// The calls on slices: any input, 13 by the name that it has for the call, and lists as the model has them.
#[test]
fn calls_on_slices() {
    let (mut adds, mut removes, mut listings) = (Given::default(), Given::default(), Given::default());
    trials("slices", 5_000, |rng| {
        let good = tables::any(rng);
        let mut table = match rng.below(12) {
            0 => tables::cut(rng, &good),
            1 => tables::spoilt(rng, &good),
            _ => good,
        };
        let crew = if rng.percent(10) { rng.pick(&tables::UNKNOWN) } else { rng.between(1, 2) as u32 };
        let chamber = match rng.below(10) {
            0 => rng.pick(&tables::NO_CHAMBER),
            1..=5 => table.first().map_or(0, |word| word % 65_536),
            _ => rng.below(1_000) as u32,
        };
        let (mut found, mut expected) = (tables::found(rng), table.clone());
        let mut expected_found = found.clone();
        let listed = calls::list(&table, crew, &mut found);
        let listing = model::list(&table, crew, &mut expected_found);
        assert_eq!((number(&listed), listed.unwrap_or(0)), (listing.number, listing.count as usize));
        assert_eq!(found, expected_found);
        listings.count(listing.number);
        let removed = calls::remove(&mut table.clone(), crew, chamber);
        assert_eq!(number(&removed), model::remove(&mut table.clone(), crew, chamber));
        assert_ne!(removed, Err(Refusal::Pinned));
        removes.count(number(&removed));
        let added = calls::add(&mut table, crew, chamber);
        assert_eq!(number(&added), model::add(&mut expected, crew, chamber));
        assert_ne!(added, Err(Refusal::NotPinned));
        assert_eq!(table, expected);
        adds.count(number(&added));
    });
    adds.assert_often("adds on slices", &[0, 2, 3, 11, 12, 13, 14], 100);
    removes.assert_often("removes on slices", &[0, 2, 3, 11, 12, 13], 100);
    listings.assert_often("listings on slices", &[0, 2, 3, 11], 100);
}

/// A table's history beside the two sets: the same refusals, the same pins, one listing as good as the other ways to ask.
#[test]
fn a_tables_history() {
    trials("owned tables", 150, |rng| {
        let (mut table, mut sets) = (PinTable::new(), Sets::default());
        for _ in 0..150 {
            let crew = rng.pick(&Crew::BOTH);
            let chamber = if rng.percent(3) { rng.pick(&tables::NO_CHAMBER) } else { rng.below(45) as u32 };
            let before = table.clone();
            let (answer, expected) = if rng.percent(75) {
                (table.add(crew, chamber), sets.add(crew.number(), chamber))
            } else {
                (table.remove(crew, chamber), sets.remove(crew.number(), chamber))
            };
            assert_eq!(number(&answer), expected);
            assert_eq!(table == before, answer.is_err());
            let own = sets.of(crew.number()).unwrap();
            assert!(table.pins(crew).iter().eq(own));
            assert_eq!(table.contains(crew, chamber), own.contains(&chamber));
            assert_eq!(PinTable::from_words(*table.words()), Ok(table.clone()));
        }
    });
}

#[test]
fn a_table_of_words() {
    let rng = &mut Rng::new(1);
    assert_eq!(PinTable::default(), PinTable::new());
    assert_eq!(PinTable::new().words(), &[0; 64]);
    assert_eq!(PinTable::from_words([0; 64]), Ok(PinTable::new()));
    for _ in 0..300 {
        let good = tables::any(rng);
        let table = PinTable::from_words(good.clone().try_into().unwrap()).unwrap();
        assert_eq!(table.words()[..], good[..]);
        let bad = tables::spoilt(rng, &good);
        assert_eq!(PinTable::from_words(bad.try_into().unwrap()), Err(Refusal::Table));
    }
    // of the other crew's too many as well
    for (one, two) in [(33, 0), (0, 33), (31, 33), (33, 31)] {
        assert_eq!(PinTable::from_words(tables::table(rng, one, two).try_into().unwrap()), Err(Refusal::Table));
    }
}

/// Equal tables have equal places; equal pins are enough for two listings.
#[test]
fn places_count_for_a_table_and_not_for_pins() {
    let (mut one, mut other) = (PinTable::new(), PinTable::new());
    for chamber in [5, 6] {
        one.add(Crew::One, chamber).unwrap();
        other.add(Crew::One, 11 - chamber).unwrap();
    }
    assert_ne!(one, other);
    assert_eq!(one.pins(Crew::One), other.pins(Crew::One));
    assert_ne!(one.pins(Crew::One), one.pins(Crew::Two));
}

/// A crew's pins as a slice, and by both ways of going through them.
#[test]
fn pins_as_a_list() {
    let mut table = PinTable::new();
    assert!(table.pins(Crew::One).is_empty());
    for chamber in [999, 0, 31] {
        table.add(Crew::One, chamber).unwrap();
    }
    let pins: Pins = table.pins(Crew::One);
    table.remove(Crew::One, 0).unwrap();
    assert_eq!((pins.len(), pins.first(), pins.last()), (3, Some(&0), Some(&999)));
    assert_eq!(format!("{pins:?}"), "[0, 31, 999]");
    assert_eq!((&pins).into_iter().copied().collect::<Vec<u32>>(), [0, 31, 999]);
    assert_eq!(pins.into_iter().collect::<Vec<u32>>(), [0, 31, 999]);
}
