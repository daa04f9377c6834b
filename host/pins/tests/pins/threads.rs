//! No call keeps anything: threads that make every call at once, each on tables of its own, all get the model's answers; and threads that
//! list one table at once get the same.

use crate::library;
use crate::rng::Rng;
use crate::tables;
use pins::{Crew, PinTable};
use std::thread;

#[test]
fn calls_at_once() {
    let threads: Vec<_> = (0..4)
        .map(|number| {
            thread::spawn(move || {
                let rng = &mut Rng::new(number);
                let mut table = vec![0; 64];
                for _ in 0..3_000 {
                    let (crew, chamber) = (rng.between(1, 2) as u32, rng.below(40) as u32);
                    library::add(rng, &mut table, crew, chamber);
                    library::remove(rng, &mut table, 3 - crew, chamber);
                    let mut found = tables::found(rng);
                    library::list(rng, &table, crew, &mut found);
                    let wild = tables::spoilt(rng, &table);
                    assert_eq!(library::numbers(rng, &wild, crew, chamber), [3, 3, 3]);
                }
            })
        })
        .collect();
    for thread in threads {
        thread.join().unwrap();
    }
}

#[test]
fn listings_of_one_table_at_once() {
    let rng = &mut Rng::new(9);
    let mut table = PinTable::new();
    for chamber in tables::chambers(rng, 32) {
        table.add(Crew::One, chamber).unwrap();
        table.add(Crew::Two, 999 - chamber).unwrap();
    }
    let expected = Crew::BOTH.map(|crew| table.pins(crew));
    thread::scope(|scope| {
        for _ in 0..4 {
            scope.spawn(|| {
                for _ in 0..3_000 {
                    assert_eq!(Crew::BOTH.map(|crew| table.pins(crew)), expected);
                }
            });
        }
    });
}
