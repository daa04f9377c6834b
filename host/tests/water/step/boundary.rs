//! Refusals 1 to 5 and 7 of the step, each from both sides of its boundary, and the lowest of several. (6 is unused: shares.rs.)

use super::{pair, stepped};
use crate::library;
use crate::rng::Rng;
use crate::wild::Wild;
use water::raw::Card;

/// The number of a step into a list of so many words.
fn number_into(site: &Wild, words: usize) -> u32 {
    library::step(&mut Rng::new(1), site.card, &site.ground, &site.state, &mut vec![-7; words])
}

fn good() -> Wild {
    let mut site = Wild::empty(Card { columns: 3, rows: 2, dx: 1_000_000, dy: 2_000_000, dt: 10, steps: 3 });
    site.state[..6].copy_from_slice(&[1_000, 2_000, 3_000, 4_000, 5_000, 6_000]);
    site
}

/// The number of a step of a good 3×2 site with one thing changed.
fn number_with(change: impl Fn(&mut Wild)) -> u32 {
    let mut site = good();
    change(&mut site);
    number_into(&site, site.state.len())
}

#[test]
fn every_range_on_both_sides() {
    assert_eq!(number_with(|_| ()), 0);
    // refusal 1: sizes are looked at before the lists
    for (wrong, right) in [(99_999, 100_000), (20_000_001, 20_000_000)] {
        assert_eq!(number_with(|site| site.card.dx = wrong), 1);
        assert_eq!(number_with(|site| site.card.dx = right), 0);
        assert_eq!(number_with(|site| site.card.dy = wrong), 1);
        assert_eq!(number_with(|site| site.card.dy = right), 0);
    }
    for (wrong, right) in [(0, 1), (1_001, 1_000)] {
        assert_eq!(number_with(|site| site.card.dt = wrong), 1);
        assert_eq!(number_with(|site| site.card.dt = right), 0);
    }
    assert_eq!(number_with(|site| site.card.steps = 10_001), 1);
    assert_eq!(number_with(|site| site.card.steps = 10_000), 0);
    assert_eq!(number_with(|site| site.card.steps = 0), 0);
    for size in [0, 129, u32::MAX] {
        assert_eq!(number_with(|site| site.card.columns = size), 1);
        assert_eq!(number_with(|site| site.card.rows = size), 1);
    }
    for size in [1, 128] {
        assert_eq!(number_with(|site| site.card.columns = size), 2);
        assert_eq!(number_with(|site| site.card.rows = size), 2);
    }
}

/// Refusal 2: each list one word short and one word long, and state and next state together.
#[test]
fn every_length_on_both_sides() {
    let number = |ground: usize, state: usize, next: usize| {
        let mut site = good();
        site.ground.resize(ground, 0);
        site.state.resize(state, 0);
        number_into(&site, next)
    };
    assert_eq!(number(6, 23, 23), 0);
    for (cells, words) in [(5, 22), (7, 24)] {
        assert_eq!(number(cells, 23, 23), 2);
        assert_eq!(number(6, words, 23), 2);
        assert_eq!(number(6, 23, words), 2);
        assert_eq!(number(6, words, words), 2);
    }
}

/// Refusal 3.
#[test]
fn every_word_of_a_site_on_both_sides() {
    let words = Wild::empty(Card { columns: 3, rows: 2, ..Card::default() }).state.len();
    for k in 0..6 {
        for (wrong, right) in [(-50_000_001, -50_000_000), (50_000_001, 50_000_000), (i32::MIN, 0), (i32::MAX, 0)] {
            assert_eq!(number_with(|site| site.ground[k] = wrong), 3);
            assert_eq!(number_with(|site| site.ground[k] = right), 0);
        }
        for (wrong, right) in [(-1, 0), (50_000_001, 50_000_000), (i32::MIN, 1), (i32::MAX, 1)] {
            assert_eq!(number_with(|site| site.state[k] = wrong), 3);
            assert_eq!(number_with(|site| site.state[k] = right), 0);
        }
    }
    for k in 6..words {
        let (face, wide) = if k < 14 { ((k - 6) % 4, 3) } else { ((k - 14) / 3, 2) };
        let wall = face == 0 || face == wide;
        for wrong in [-20_000_001, 20_000_001, i32::MIN, i32::MAX] {
            assert_eq!(number_with(|site| site.state[k] = wrong), 3, "word {k}");
        }
        for right in [-20_000_000, 20_000_000, 1, -1] {
            assert_eq!(number_with(|site| site.state[k] = right), if wall { 3 } else { 0 }, "word {k}");
        }
    }
}

/// The lowest number that applies: a site with several things wrong, taken away one by one.
#[test]
fn the_lowest_number_is_given() {
    let worst = |site: &mut Wild| {
        site.card.dt = 1_001;
        site.ground.pop();
        site.state[0] = -1;
    };
    assert_eq!(number_with(worst), 1);
    let lists_and_values = |site: &mut Wild| {
        worst(site);
        site.card.dt = 10;
    };
    assert_eq!(number_with(lists_and_values), 2);
    let values = |site: &mut Wild| {
        lists_and_values(site);
        site.ground.push(0);
    };
    assert_eq!(number_with(values), 3);
    // 4 before 5 before 7: fast water into a cell that is full to the brim, beside a cliff
    let rush = |u: i32, full: i32, cliff: i32| {
        number_with(move |site| {
            site.card.dt = 1_000;
            site.state[..6].fill(full);
            let middle = site.east(1, 0);
            site.state[middle] = u;
            site.ground[2] = cliff;
        })
    };
    assert_eq!(rush(1_000_001, 50_000_000, 50_000_000), 4);
    assert_eq!(rush(1_000_000, 50_000_000, 50_000_000), 5);
    assert_eq!(rush(1_000_000, 20_000_000, 50_000_000), 7);
    assert_eq!(rush(100_000, 1_000_000, 0), 0);
}

/// Refusal 4 is a matter of velocities alone: dry cells count too.
#[test]
fn the_limit_counts_dry_cells() {
    let dry = |u: i32| {
        number_with(move |site| {
            site.state[..6].fill(0);
            let middle = site.east(1, 0);
            site.card.dt = 1_000;
            site.state[middle] = u;
        })
    };
    assert_eq!(dry(1_000_000), 0);
    assert_eq!(dry(1_000_001), 4);
}

/// The look meets a breaker in any cell: each inner face in turn is too fast, out of one of its cells and out of the other.
#[test]
fn the_limit_is_looked_at_in_every_cell() {
    for (columns, rows) in [(2, 1), (1, 2), (5, 4), (128, 2), (2, 128)] {
        let card = Card { columns, rows, dx: 100_000, dy: 100_000, dt: 1_000, steps: 0 };
        let site = Wild::empty(card);
        for j in 0..rows {
            for i in 1..columns {
                on_both_sides(&site, site.east(i, j));
            }
        }
        for j in 1..rows {
            for i in 0..columns {
                on_both_sides(&site, site.north(i, j));
            }
        }
    }
}

fn on_both_sides(site: &Wild, place: usize) {
    for way in [1, -1] {
        assert_eq!(step_with(site, place, way * 100_001), 4, "word {place}");
        assert_eq!(step_with(site, place, way * 100_000), 0, "word {place}");
    }
}

fn step_with(site: &Wild, place: usize, velocity: i32) -> u32 {
    let mut state = site.state.clone();
    state[place] = velocity;
    library::step(&mut Rng::new(place as u64), site.card, &site.ground, &state, &mut vec![0; state.len()])
}

/// The card of two cells of these sides, with the longest time step.
fn two_cells(sides: u32) -> Card {
    Card { columns: 2, rows: 1, dx: sides, dy: sides, dt: 1_000, steps: 0 }
}

/// The number of a step of two cells side by side and of each turn of them, u being the velocity between them.
fn number_of_pair(sides: u32, ground: [i32; 2], heights: [i32; 2], u: i32) -> u32 {
    stepped(&pair(two_cells(sides), ground, heights, u)).0
}

/// Refusal 5: 1,000 flow in; the surface is level afterwards, so that the velocity is out of the way.
#[test]
fn a_new_height_on_both_sides() {
    for (height, number) in [(49_999_000, 0), (49_999_001, 5)] {
        assert_eq!(number_of_pair(1_000_000, [49_001_000, 0], [1_000_000, height], 1_000), number);
    }
}

/// Refusal 7: with gravity's own number for a side and a step of a second, the slope is the rise.
#[test]
fn a_new_velocity_on_both_sides() {
    for (rise, number) in [(20_000_000, 0), (20_000_001, 7)] {
        assert_eq!(number_of_pair(9_806_650, [0, rise], [1, 1], 0), number);
        assert_eq!(number_of_pair(9_806_650, [0, -rise], [1, 1], 0), number);
    }
}

/// A bank so steep that its slope was refused with 7 is accepted, and its water lies still; 1 µm of water on it, and it is none.
#[test]
fn a_steep_bank_is_not_too_fast() {
    let highest = 50_000_000;
    for water in [1, 1_000_000, 50_000_000] {
        let site = pair(two_cells(100_000), [-highest, highest], [water, 0], 0);
        assert_eq!(stepped(&site), (0, site.state));
        assert_eq!(number_of_pair(100_000, [-highest, highest], [water, 1], 0), 7);
    }
}

/// Refusal 7 beside a dry cell that is no bank: its ground is so far below the water's surface.
#[test]
fn a_new_velocity_beside_a_dry_cell() {
    for (below, number) in [(20_000_000, 0), (20_000_001, 7)] {
        assert_eq!(number_of_pair(9_806_650, [below - 1, 0], [1, 0], 0), number);
    }
}

/// Beside a bank, steep or level or 1 µm below the water and so none, the other face of that water is refused where it is too fast.
#[test]
fn a_new_velocity_beside_a_bank() {
    for bank in [50_000_000, 1, 0] {
        for (rise, number) in [(20_000_000, 0), (20_000_001, 7)] {
            let mut site = Wild::empty(Card { columns: 3, rows: 1, dx: 9_806_650, dy: 9_806_650, dt: 1_000, steps: 0 });
            site.ground.copy_from_slice(&[bank, 0, rise]);
            site.state[..3].copy_from_slice(&[0, 1, 1]);
            assert_eq!(stepped(&site).0, number, "a bank at {bank}");
        }
    }
}
