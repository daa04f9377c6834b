//! Every short history: all sequences of five calls by both crews on two chambers, from an empty table. After each call both crews list.

use crate::library;
use crate::model::Sets;
use crate::rng::Rng;

const DEEP: u32 = 5;

fn lists_as(rng: &mut Rng, table: &[u32], sets: &Sets) {
    for crew in [1, 2] {
        let mut found = [1_234; 32];
        let (number, chambers) = sets.list(crew);
        let listing = library::list(rng, table, crew, &mut found);
        assert_eq!((listing.number, listing.count as usize), (number, chambers.len()));
        assert_eq!(found[..chambers.len()], chambers[..]);
    }
}

/// Goes on from a table with every call, and counts the calls.
fn go_on(rng: &mut Rng, table: &[u32], sets: &Sets, left: u32) -> u64 {
    let mut calls = 0;
    for (crew, chamber) in [(1, 0), (1, 999), (2, 0), (2, 999)] {
        for adds in [true, false] {
            let (mut table, mut sets) = (table.to_vec(), sets.clone());
            if adds {
                assert_eq!(library::add(rng, &mut table, crew, chamber), sets.add(crew, chamber));
            } else {
                assert_eq!(library::remove(rng, &mut table, crew, chamber), sets.remove(crew, chamber));
            }
            lists_as(rng, &table, &sets);
            calls += 1;
            if left > 1 {
                calls += go_on(rng, &table, &sets, left - 1);
            }
        }
    }
    calls
}

#[test]
fn every_short_history() {
    let calls = go_on(&mut Rng::new(1), &[0; 64], &Sets::default(), DEEP);
    assert_eq!(calls, 8 + 64 + 512 + 4_096 + 32_768);
}
