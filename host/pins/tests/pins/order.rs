//! The order of the refusals: where several apply together, the first is given. Every set of them that one call can have is tried.

use crate::library;
use crate::model::pin;
use crate::rng::Rng;
use crate::tables;

const ALL: [u32; 6] = [2, 3, 11, 12, 13, 14];

/// The number that stands first in the document's order, which is that of the numbers.
fn first(wanted: &[u32]) -> u32 {
    wanted.iter().copied().min().unwrap_or(0)
}

/// Every set of these numbers.
fn sets(numbers: &[u32]) -> impl Iterator<Item = Vec<u32>> + '_ {
    (0..1 << numbers.len())
        .map(move |bits: u32| (0u32..).zip(numbers).filter(|(k, _)| bits >> k & 1 == 1).map(|(_, n)| *n).collect())
}

/// A table to ask crew `crew` about, with these reasons to refuse: `full` is 14 to an add.
fn table(rng: &mut Rng, crew: u32, wanted: &[u32], full: bool) -> Vec<u32> {
    let (own, others) = (if full { 32 } else { 5 }, if rng.percent(50) { 5 } else { 31 });
    let mut table = if crew == 1 { tables::table(rng, own, others) } else { tables::table(rng, others, own) };
    if wanted.contains(&3) {
        // in a place that is free, or has the other crew's pin, so that this crew's stay
        let places: Vec<usize> = (0..63).filter(|&place| table[place] / 65_536 != crew).collect();
        table[rng.pick(&places)] = tables::bad_word(rng);
    }
    if wanted.contains(&2) {
        let cut = table[63] / 65_536 != crew && rng.percent(50);
        table.resize(if cut { 63 } else { 65 }, 0);
    }
    table
}

/// The chamber to ask for: one that this crew has, or has not, or one that is none, and then, if it can be, one whose word stands in the
/// table all the same, as the other crew's.
fn chamber(rng: &mut Rng, table: &[u32], crew: u32, wanted: &[u32], own: bool) -> u32 {
    let of = |crew: u32| -> Vec<u32> { table.iter().filter(|&&word| word / 65_536 == crew).map(|word| word % 65_536).collect() };
    match (wanted.contains(&12), own) {
        (true, true) if crew == 1 && !of(2).is_empty() => 65_536 + rng.pick(&of(2)),
        (true, _) => rng.pick(&tables::NO_CHAMBER),
        (false, true) => rng.pick(&of(crew)),
        (false, false) => (0..1_000).find(|&chamber| !table.contains(&pin(crew, chamber))).unwrap(),
    }
}

fn crew_of(rng: &mut Rng, crew: u32, wanted: &[u32]) -> u32 {
    if wanted.contains(&11) {
        rng.pick(&tables::UNKNOWN)
    } else {
        crew
    }
}

#[test]
fn of_an_add() {
    let rng = &mut Rng::new(1);
    for wanted in sets(&ALL) {
        for (crew, _) in [1, 2].into_iter().flat_map(|crew| (0..20).map(move |turn| (crew, turn))) {
            let mut table = table(rng, crew, &wanted, wanted.contains(&14));
            let chamber = chamber(rng, &table, crew, &wanted, wanted.contains(&13));
            let asked = crew_of(rng, crew, &wanted);
            assert_eq!(library::add(rng, &mut table, asked, chamber), first(&wanted), "{wanted:?} apply");
        }
    }
}

/// A crew that is full has no less to remove.
#[test]
fn of_a_remove() {
    let rng = &mut Rng::new(2);
    for wanted in sets(&ALL[..5]) {
        for (crew, turn) in [1, 2].into_iter().flat_map(|crew| (0..20).map(move |turn| (crew, turn))) {
            let mut table = table(rng, crew, &wanted, turn % 2 == 0);
            let chamber = chamber(rng, &table, crew, &wanted, !wanted.contains(&13));
            let asked = crew_of(rng, crew, &wanted);
            assert_eq!(library::remove(rng, &mut table, asked, chamber), first(&wanted), "{wanted:?} apply");
        }
    }
}

/// Of a listing the list's length is as much a 2 as the table's.
#[test]
fn of_a_listing() {
    let rng = &mut Rng::new(3);
    for wanted in sets(&ALL[..3]) {
        for (crew, turn) in [1, 2].into_iter().flat_map(|crew| (0..30).map(move |turn| (crew, turn))) {
            // in turns the table, the list or both have another length
            let of_table: Vec<u32> = wanted.iter().copied().filter(|&number| number != 2 || turn % 3 != 0).collect();
            let table = table(rng, crew, &of_table, turn % 2 == 0);
            let mut found = tables::found(rng);
            if wanted.contains(&2) && turn % 3 != 1 {
                found.resize(rng.pick(&[0, 31, 33]), 0);
            }
            let asked = crew_of(rng, crew, &wanted);
            let listing = library::list(rng, &table, asked, &mut found);
            assert_eq!(listing.number, first(&wanted), "{wanted:?} apply");
            assert!(listing.number == 0 || listing.count == 0);
        }
    }
}

/// An unknown crew 0 has no pins although every free place has the word that its pin on chamber 0 would be, and has not 32 although there are
/// so many of those.
#[test]
fn crew_0_owns_no_free_place() {
    let rng = &mut Rng::new(4);
    for pins in [0, 16, 32] {
        let mut table = tables::table(rng, pins, pins);
        assert_eq!(library::add(rng, &mut table, 0, 0), 11);
        assert_eq!(library::remove(rng, &mut table, 0, 0), 11);
        assert_eq!(library::list(rng, &table, 0, &mut [5; 32]).number, 11);
    }
}
