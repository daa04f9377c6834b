//! The table by its words: what each call answers to any input, and every word that it leaves.

use pins::raw::Listing;
use std::collections::BTreeSet;

/// The word of a crew's pin.
pub fn pin(crew: u32, chamber: u32) -> u32 {
    crew * 65_536 + chamber
}

/// What can be wrong with a table.
#[derive(Clone, Copy, Debug, PartialEq, Eq, PartialOrd, Ord)]
pub enum Fault {
    Crew,
    Chamber,
    Twice,
    Over,
}

/// All that is wrong with a table, whatever its length.
pub fn faults(table: &[u32]) -> BTreeSet<Fault> {
    let taken: Vec<u32> = table.iter().copied().filter(|&word| word != 0).collect();
    let distinct: BTreeSet<u32> = taken.iter().copied().collect();
    let held = |crew| taken.iter().filter(|&&word| word >> 16 == crew).count();
    let found = [
        (Fault::Crew, taken.iter().any(|word| ![1, 2].contains(&(word >> 16)))),
        (Fault::Chamber, taken.iter().any(|word| word & 0xffff >= 1_000)),
        (Fault::Twice, distinct.len() < taken.len()),
        (Fault::Over, held(1) > 32 || held(2) > 32),
    ];
    found.iter().filter(|(_, is_so)| *is_so).map(|(fault, _)| *fault).collect()
}

/// The first number whose refusal applies, or 0.
fn first(refusals: &[(u32, bool)]) -> u32 {
    refusals.iter().find(|(_, applies)| *applies).map_or(0, |(number, _)| *number)
}

/// A crew's chambers, rising. A crew is any number here, and is compared as one.
fn chambers(table: &[u32], crew: u32) -> BTreeSet<u32> {
    table.iter().filter(|&&word| word != 0 && word / 65_536 == crew).map(|word| word % 65_536).collect()
}

pub fn add(table: &mut [u32], crew: u32, chamber: u32) -> u32 {
    let own = chambers(table, crew);
    let number = first(&[
        (2, table.len() != 64),
        (3, !faults(table).is_empty()),
        (11, crew != 1 && crew != 2),
        (12, chamber >= 1_000),
        (13, own.contains(&chamber)),
        (14, own.len() >= 32),
    ]);
    if number == 0 {
        let lowest = table.iter().position(|&word| word == 0).expect("a crew with room finds a place");
        table[lowest] = pin(crew, chamber);
    }
    number
}

pub fn remove(table: &mut [u32], crew: u32, chamber: u32) -> u32 {
    let number = first(&[
        (2, table.len() != 64),
        (3, !faults(table).is_empty()),
        (11, crew != 1 && crew != 2),
        (12, chamber >= 1_000),
        (13, !chambers(table, crew).contains(&chamber)),
    ]);
    if number == 0 {
        table.iter_mut().filter(|word| **word == pin(crew, chamber)).for_each(|word| *word = 0);
    }
    number
}

pub fn list(table: &[u32], crew: u32, found: &mut [u32]) -> Listing {
    let number =
        first(&[(2, table.len() != 64 || found.len() != 32), (3, !faults(table).is_empty()), (11, crew != 1 && crew != 2)]);
    if number != 0 {
        return Listing { number, count: 0 };
    }
    let own = chambers(table, crew);
    for (place, chamber) in found.iter_mut().zip(&own) {
        *place = *chamber;
    }
    Listing { number, count: own.len() as u32 }
}
