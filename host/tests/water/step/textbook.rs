//! The textbook engine's two terms, as the model has them, beside the velocities that the library gives: on faces that can be worked out by
//! hand, and where the terms are as great as the ranges allow, the deepest water over the steepest ground, still and moving. That both
//! engines give the same is held wherever a step is made (library.rs).

use super::{pair, stepped};
use crate::given::Given;
use crate::library;
use crate::model::Terms;
use crate::rng::Rng;
use crate::trials::{single, trials};
use crate::wild::{Wild, HEIGHT};
use water::raw::Card;

const CARD: Card = Card { columns: 2, rows: 1, dx: 1_000_000, dy: 1_000_000, dt: 100, steps: 0 };
const MOST: i32 = HEIGHT as i32;

/// Still water in two cells: pressure term, ground term and H', their quotient, and the velocity that it gives at dt 100 and sides of 1 m.
#[test]
fn terms_on_numbers() {
    let cases = [
        // document 01's first case, on flat ground
        ([0, 0], [2_000_000, 1_000_000], (-3_000_000_000_000, 0, 3_000_000), -1_000_000, 980_665),
        // one surface: the terms are opposite
        ([0, 400_000], [1_000_000, 600_000], (-640_000_000_000, 640_000_000_000, 1_600_000), 0, 0),
        // a bank with 1 µm of water on it
        ([0, 1_500_000], [1_000_000, 1], (-999_999_999_999, 1_500_001_500_000, 1_000_001), 500_001, -490_333),
        // no water in the east, and a ground below the surface
        ([0, 400_000], [1_000_000, 0], (-1_000_000_000_000, 400_000_000_000, 1_000_000), -600_000, 588_399),
        // a mean height of 1.5: not doubled it would not be whole
        ([0, 3_000], [2, 1], (-3, 9_000, 3), 2_999, -2_941),
    ];
    for (ground, heights, (pressure, in_ground, new_sum), quotient, velocity) in cases {
        let site = pair(CARD, ground, heights, 0);
        let (number, next) = stepped(&site);
        assert_eq!((number, next[site.east(1, 0)]), (0, velocity));
        let terms = Terms::of(&site.pairs_in(&next)[0]);
        assert_eq!((terms.pressure, terms.ground, terms.new_sum, terms.quotient()), (pressure, in_ground, new_sum, quotient));
    }
}

/// The least and the greatest that was met of each number.
#[derive(Debug, PartialEq)]
struct Met {
    pressure: [i128; 2],
    ground: [i128; 2],
    added: [i128; 2],
    quotient: [i128; 2],
}

/// What the ranges allow. Added, the terms are greatest where both cells are full: (hK'+hL')·(hL'−hK' + 100,000,000).
const ALLOWED: Met = Met {
    pressure: [-2_500_000_000_000_000, 2_500_000_000_000_000],
    ground: [-10_000_000_000_000_000, 10_000_000_000_000_000],
    added: [-10_000_000_000_000_000, 10_000_000_000_000_000],
    quotient: [-150_000_000, 150_000_000],
};

impl Met {
    fn nothing() -> Met {
        Met { pressure: [0; 2], ground: [0; 2], added: [0; 2], quotient: [0; 2] }
    }

    /// The faces of an accepted step that have water and no dry bank.
    fn look(&mut self, site: &Wild, next: &[i32]) {
        for cells in site.pairs_in(next).iter().filter(|cells| cells.sum() > 0 && !cells.dry_bank()) {
            let terms = Terms::of(cells);
            for (met, number) in [
                (&mut self.pressure, terms.pressure),
                (&mut self.ground, terms.ground),
                (&mut self.added, terms.added()),
                (&mut self.quotient, terms.quotient()),
            ] {
                *met = [met[0].min(number), met[1].max(number)];
            }
        }
    }
}

/// Two cells, empty, full or 1 µm off, on the lowest and the highest ground or 1 µm off, with the shortest and the longest step and side,
/// still and at full speed; each turn of them too.
#[test]
fn the_deepest_water_over_the_steepest_ground() {
    let both = |list: [i32; 4]| list.into_iter().flat_map(move |k| list.map(|l| [k, l]));
    let (mut given, mut met) = (Given::default(), Met::nothing());
    for (dt, d) in [(1, 100_000), (1, 20_000_000), (1_000, 100_000), (1_000, 20_000_000)] {
        for ground in both([-MOST, 1 - MOST, MOST - 1, MOST]) {
            for heights in both([0, 1, MOST - 1, MOST]) {
                for u in [0, 1, -1, 20_000_000, -20_000_000] {
                    let site = pair(Card { dx: d, dy: d, dt, ..CARD }, ground, heights, u);
                    let (number, next) = stepped(&site);
                    given.count(number);
                    if number == 0 {
                        met.look(&site, &next);
                    }
                }
            }
        }
    }
    given.assert_often("deepest and steepest", &[0, 4, 5, 7], 20);
    println!("deepest and steepest: {met:?}");
    assert_eq!(met, ALLOWED);
}

/// Refusal 7 where the terms are greatest: one side is just long enough for the velocity, and 1 µm less is not.
#[test]
fn the_greatest_terms_on_both_sides_of_seven() {
    let cases = [
        // the greatest sum of the terms: both cells full, so that the velocity is all of the range
        ([MOST, MOST], 4_903_325, 20_000_000),
        // the greatest quotient: full on the heights, and dry below
        ([0, MOST], 7_354_988, 19_999_998),
    ];
    for (heights, side, speed) in cases {
        for (d, expected) in [(side, 0), (side - 1, 7)] {
            let site = pair(Card { dx: d, dy: d, ..CARD }, [-MOST, MOST], heights, 0);
            let (number, next) = stepped(&site);
            assert_eq!(number, expected, "{heights:?} and sides of {d}");
            if number == 0 {
                assert_eq!(next[site.east(1, 0)], -speed);
            }
        }
    }
}

/// An odd sum above 2^53, where doubles are even: worked out in them and cut, the quotient would be 1 µm too small, and the velocity 1 µm/s.
#[test]
fn terms_that_no_double_holds() {
    let site = pair(Card { dx: 4_903_325, ..CARD }, [-MOST, 49_999_994], [MOST - 1, MOST], 0);
    let (number, next) = stepped(&site);
    assert_eq!((number, next[site.east(1, 0)]), (0, -19_999_999));
    let terms = Terms::of(&site.pairs_in(&next)[0]);
    assert_eq!((terms.added(), terms.quotient()), (9_999_999_400_000_005, 99_999_995));
}

/// A number of a range, mostly one of its ends or next to it.
fn at_an_end(rng: &mut Rng, low: i32, high: i32) -> i32 {
    match rng.below(6) {
        0 => low,
        1 => low + 1,
        2 => high - 1,
        3 => high,
        _ => rng.between(low.into(), high.into()) as i32,
    }
}

/// Up to 4 by 4 cells, deep or dry, on cliffs, with steps so short that most velocities fit.
fn deep_and_steep(rng: &mut Rng) -> Wild {
    let mut side = || rng.scaled(1_000_000, 20_000_000) as u32;
    let card = Card { dx: side(), dy: side(), ..CARD };
    let (columns, rows) = (rng.between(1, 4) as u32, rng.between(1, 4) as u32);
    let mut site = Wild::empty(Card { columns, rows, dt: rng.scaled(1, 100) as u32, ..card });
    for k in 0..site.ground.len() {
        site.ground[k] = at_an_end(rng, -MOST, MOST);
        site.state[k] = at_an_end(rng, 0, MOST);
    }
    let speed = rng.pick(&[0, 10, 1_000_000, 20_000_000]);
    for place in site.inner_faces() {
        site.state[place] = rng.between(-speed, speed) as i32;
    }
    site
}

#[test]
fn random_depths_and_cliffs() {
    let (mut given, mut met) = (Given::default(), Met::nothing());
    trials("depths and cliffs", 6_000, |rng| {
        let site = deep_and_steep(rng);
        let mut next = vec![-7; site.state.len()];
        let number = library::step(rng, site.card, &site.ground, &site.state, &mut next);
        given.count(number);
        if number == 0 {
            met.look(&site, &next);
        }
    });
    given.assert_some("depths and cliffs", &[0, 5, 7], 40);
    println!("depths and cliffs: {met:?}");
    assert!(single() || (met.added[0] < -9_900_000_000_000_000 && met.added[1] > 9_900_000_000_000_000));
}
