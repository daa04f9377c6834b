//! The crews are apart: the same calls of one crew get the same answers, and leave the same in its lists, whatever the other crew does in
//! between. Each case is played on three tables side by side: the crew alone, beside one that comes and goes, and beside one that takes all
//! it can.

use crate::library;
use crate::rng::Rng;
use crate::tables;
use crate::trials::{single, trials};

/// One of a crew's own calls.
#[derive(Clone, Copy, Debug)]
enum Own {
    Add(u32),
    Remove(u32),
    List,
}

/// A call with a chamber of the pool; `adding` of 100 that change the table add.
fn any(rng: &mut Rng, pool: &[u32], adding: u64) -> Own {
    let chamber = if rng.percent(3) { rng.pick(&tables::NO_CHAMBER) } else { rng.pick(pool) };
    match rng.below(4) {
        0 => Own::List,
        _ if rng.percent(adding) => Own::Add(chamber),
        _ => Own::Remove(chamber),
    }
}

/// All that a crew gets to see of a call: its number, and of a listing the count and the whole list, which was lent full of the same word.
fn answer(rng: &mut Rng, table: &mut [u32], crew: u32, call: Own) -> (u32, u32, Vec<u32>) {
    match call {
        Own::Add(chamber) => (library::add(rng, table, crew, chamber), 0, vec![]),
        Own::Remove(chamber) => (library::remove(rng, table, crew, chamber), 0, vec![]),
        Own::List => {
            let mut found = vec![4_321; 32];
            let listing = library::list(rng, table, crew, &mut found);
            (listing.number, listing.count, found)
        }
    }
}

#[test]
fn answers_depend_on_a_crews_own_calls_only() {
    // own calls, those with the crew's pins in other places than when it is alone, and those beside 32 of the other crew's
    let (mut calls, mut elsewhere, mut crowded) = (0u64, 0u64, 0u64);
    trials("apart", 500, |rng| {
        let crew = rng.between(1, 2) as u32;
        let many = rng.pick(&[3, 36, 1_000]);
        // the other crew asks for the same chambers
        let pool = tables::chambers(rng, many);
        let (mut alone, mut beside) = (vec![0; 64], [(vec![0; 64], 55), (vec![0; 64], 97)]);
        for turn in 0..120 {
            let call = any(rng, &pool, if turn < 60 { 85 } else { 40 });
            let expected = answer(rng, &mut alone, crew, call);
            for (table, adding) in &mut beside {
                for _ in 0..rng.below(5) {
                    let other = any(rng, &pool, *adding);
                    answer(rng, table, 3 - crew, other);
                }
                assert_eq!(answer(rng, table, crew, call), expected, "crew {crew}: {call:?}");
                let own =
                    |table: &[u32]| -> Vec<u32> { table.iter().map(|&word| if word >> 16 == crew { word } else { 0 }).collect() };
                calls += 1;
                elsewhere += u64::from(own(table) != own(&alone));
                crowded += u64::from(table.iter().filter(|&&word| word >> 16 == 3 - crew).count() == 32);
            }
        }
    });
    println!("apart: {calls} calls beside another crew, {elsewhere} with pins in other places, {crowded} beside 32 pins");
    assert!(single() || (calls >= 100_000 && elsewhere * 2 > calls && crowded * 10 > calls));
}

/// Nor do they depend on what the other crew had when a crew began, or on its leaving in the middle.
#[test]
fn a_crew_that_comes_late() {
    trials("late", 100, |rng| {
        let (mut empty, others) = (vec![0; 64], tables::chambers(rng, 32));
        let mut taken = vec![0; 64];
        for chamber in &others {
            assert_eq!(library::add(rng, &mut taken, 2, *chamber), 0);
        }
        let pool = tables::chambers(rng, 40);
        for turn in 0..100 {
            if turn >= 50 && turn % 2 == 0 {
                library::remove(rng, &mut taken, 2, others[(turn - 50) / 2]);
            }
            let call = any(rng, &pool, 80);
            assert_eq!(answer(rng, &mut taken, 1, call), answer(rng, &mut empty, 1, call));
        }
    });
}
