//! The step on fixed sizes: the largest site, and both sides of each size up to which the step works in shorter lists of its own.

use crate::library;
use crate::rng::Rng;
use crate::trials::trials;
use crate::wild::Wild;
use water::raw::Card;

/// A site of this size with every word at random, gentle enough for a step.
fn moving(rng: &mut Rng, columns: u32, rows: u32) -> Wild {
    let mut site = Wild::empty(Card { columns, rows, dx: 2_000_000, dy: 3_000_000, dt: 10, steps: 1 });
    for k in 0..site.ground.len() {
        site.ground[k] = rng.between(-1_000_000, 1_000_000) as i32;
        site.state[k] = rng.between(0, 3_000_000) as i32;
    }
    for place in site.inner_faces() {
        site.state[place] = rng.between(-4_000_000, 4_000_000) as i32;
    }
    site
}

fn number(rng: &mut Rng, site: &Wild) -> u32 {
    library::step(rng, site.card, &site.ground, &site.state, &mut vec![-7; site.state.len()])
}

#[test]
fn the_largest() {
    trials("largest", 6, |rng| {
        let site = moving(rng, 128, 128);
        assert_eq!(number(rng, &site), 0);
    });
}

/// The lists are shortest up to 800 words of state, and short up to 3,136; no site has 801 or 802. A step that is refused by its very
/// last velocity has filled them all by then.
#[test]
fn short_lists_and_long_ones() {
    for (columns, rows, words) in [(16, 16, 800), (3, 80, 803), (32, 32, 3_136), (17, 60, 3_137)] {
        let rng = &mut Rng::new(words as u64);
        let mut site = moving(rng, columns, rows);
        assert_eq!(site.state.len(), words);
        assert_eq!(number(rng, &site), 0);
        // the last inner face is the one between the north-east corner and the cell south of it
        let (face, corner) = (*site.inner_faces().last().unwrap(), site.ground.len() - 1);
        site.state[face] = 20_000_000;
        site.ground[corner] = -50_000_000;
        assert_eq!(number(rng, &site), 7);
    }
}
