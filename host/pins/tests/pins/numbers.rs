//! Numbers by hand: every word of the table, every answer and every word of the list written down beforehand.

use crate::library;
use crate::rng::Rng;
use pins::raw::Listing;

const ONE: u32 = 65_536;
const TWO: u32 = 131_072;
const LENT: u32 = 77_777;

/// A table that has these words in front, and is free behind them.
fn holds(table: &[u32], front: &[u32]) {
    assert_eq!(table[..front.len()], *front);
    assert!(table[front.len()..].iter().all(|&word| word == 0), "{table:?}");
}

/// A crew's listing, with the rest of the list as lent.
fn lists(rng: &mut Rng, table: &[u32], crew: u32, chambers: &[u32]) {
    let mut found = [LENT; 32];
    assert_eq!(library::list(rng, table, crew, &mut found), Listing { number: 0, count: chambers.len() as u32 });
    assert_eq!(found[..chambers.len()], *chambers);
    assert!(found[chambers.len()..].iter().all(|&word| word == LENT), "{found:?}");
}

#[test]
fn the_lowest_free_place() {
    let (rng, table) = (&mut Rng::new(1), &mut [0; 64]);
    lists(rng, table, 1, &[]);
    lists(rng, table, 2, &[]);
    assert_eq!(library::add(rng, table, 1, 907), 0);
    holds(table, &[ONE + 907]);
    assert_eq!(library::add(rng, table, 2, 0), 0);
    assert_eq!(library::add(rng, table, 1, 12), 0);
    assert_eq!(library::add(rng, table, 2, 999), 0);
    holds(table, &[ONE + 907, TWO, ONE + 12, TWO + 999]);
    lists(rng, table, 1, &[12, 907]);
    lists(rng, table, 2, &[0, 999]);
    // a place between others is free, and serves the other crew
    assert_eq!(library::remove(rng, table, 2, 0), 0);
    holds(table, &[ONE + 907, 0, ONE + 12, TWO + 999]);
    assert_eq!(library::remove(rng, table, 1, 907), 0);
    holds(table, &[0, 0, ONE + 12, TWO + 999]);
    assert_eq!(library::add(rng, table, 2, 500), 0);
    holds(table, &[TWO + 500, 0, ONE + 12, TWO + 999]);
    assert_eq!(library::add(rng, table, 1, 13), 0);
    holds(table, &[TWO + 500, ONE + 13, ONE + 12, TWO + 999]);
    lists(rng, table, 1, &[12, 13]);
    lists(rng, table, 2, &[500, 999]);
}

/// Both crews may pin one chamber, and each takes its own pin away alone.
#[test]
fn one_chamber_of_both() {
    let (rng, table) = (&mut Rng::new(2), &mut [0; 64]);
    assert_eq!(library::remove(rng, table, 1, 5), 13);
    assert_eq!(library::add(rng, table, 2, 5), 0);
    assert_eq!(library::remove(rng, table, 1, 5), 13);
    assert_eq!(library::add(rng, table, 1, 5), 0);
    holds(table, &[TWO + 5, ONE + 5]);
    assert_eq!(library::add(rng, table, 1, 5), 13);
    assert_eq!(library::add(rng, table, 2, 5), 13);
    assert_eq!(library::remove(rng, table, 1, 5), 0);
    holds(table, &[TWO + 5]);
    assert_eq!(library::remove(rng, table, 1, 5), 13);
    lists(rng, table, 1, &[]);
    lists(rng, table, 2, &[5]);
}

/// Chamber 0 is one like any other, and its pin is not a free place.
#[test]
fn chamber_0() {
    let (rng, table) = (&mut Rng::new(3), &mut [0; 64]);
    assert_eq!(library::remove(rng, table, 1, 0), 13);
    assert_eq!(library::add(rng, table, 1, 0), 0);
    assert_eq!(library::add(rng, table, 1, 1), 0);
    holds(table, &[ONE, ONE + 1]);
    lists(rng, table, 1, &[0, 1]);
    assert_eq!(library::remove(rng, table, 1, 0), 0);
    holds(table, &[0, ONE + 1]);
}

/// 32 of each fill the table to its last place; a crew that has 32 has no more room, whatever the other has.
#[test]
fn both_crews_full() {
    let (rng, table) = (&mut Rng::new(4), &mut [0; 64]);
    for k in 0..32 {
        assert_eq!(library::add(rng, table, 1, 999 - k), 0);
    }
    assert_eq!(library::add(rng, table, 1, 3), 14);
    assert_eq!(library::add(rng, table, 1, 999), 13);
    for k in 0..32 {
        assert_eq!(library::add(rng, table, 2, 968 + k), 0);
        assert_eq!(library::add(rng, table, 1, 3), 14);
    }
    let full: Vec<u32> = (0..32).map(|k| ONE + 999 - k).chain((0..32).map(|k| TWO + 968 + k)).collect();
    holds(table, &full);
    assert_eq!([1, 2].map(|crew| library::add(rng, table, crew, 3)), [14, 14]);
    let rising: Vec<u32> = (968..1_000).collect();
    lists(rng, table, 1, &rising);
    lists(rng, table, 2, &rising);
    // the only free place is the last
    assert_eq!(library::remove(rng, table, 2, 999), 0);
    assert_eq!((table[63], library::add(rng, table, 1, 3)), (0, 14));
    assert_eq!(library::add(rng, table, 2, 3), 0);
    assert_eq!(table[63], TWO + 3);
    lists(rng, table, 2, &[vec![3], (968..999).collect()].concat());
    // and now one in the middle
    assert_eq!(library::remove(rng, table, 1, 980), 0);
    assert_eq!((table[19], library::add(rng, table, 2, 4)), (0, 14));
    assert_eq!(library::add(rng, table, 1, 4), 0);
    assert_eq!(table[19], ONE + 4);
}

/// A table that no calls made: its pins stand anywhere, and it is as good.
#[test]
fn a_table_from_elsewhere() {
    let (rng, table) = (&mut Rng::new(5), &mut [0; 64]);
    (table[63], table[40], table[7]) = (ONE + 1, TWO + 1, ONE + 500);
    lists(rng, table, 1, &[1, 500]);
    lists(rng, table, 2, &[1]);
    assert_eq!(library::add(rng, table, 1, 250), 0);
    assert_eq!(table[0], ONE + 250);
    assert_eq!(library::remove(rng, table, 1, 1), 0);
    assert_eq!((table[63], table[40]), (0, TWO + 1));
    lists(rng, table, 1, &[250, 500]);
}
