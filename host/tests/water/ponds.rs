//! Still water with shores, as document 02's [2] has it: it stays as it is, step by step and in runs. Broken by a few micrometres it moves
//! exactly where some slope is not rounded to 0.

use crate::library;
use crate::model::{self, Pair};
use crate::rng::Rng;
use crate::trials::{single, trials};
use crate::wild::{self, Wild};
use std::collections::BTreeSet;
use water::raw::Card;
use water::{calls, Tally};

/// A run of the library does all its steps and changes nothing; top is the greatest height, and scratch is zero.
pub fn assert_lies_still(site: &Wild) {
    let (mut state, mut scratch) = (site.state.clone(), vec![-7; site.state.len()]);
    let tally = calls::run(site.card, &site.ground, &mut state, &[], &mut scratch);
    let top = site.state[..site.ground.len()].iter().copied().max().expect("a site has a cell");
    assert_eq!(tally, Tally { steps: site.card.steps, reason: None, top, added: 0, taken: 0 });
    assert!(state == site.state, "still water stays as it is");
    assert!(scratch.iter().all(|&word| word == 0));
}

/// The surfaces that the water on a site has.
fn levels(site: &Wild) -> BTreeSet<i32> {
    let cells = site.ground.iter().zip(&site.state);
    cells.filter(|(_, &height)| height > 0).map(|(ground, height)| ground + height).collect()
}

#[test]
fn a_pond_with_a_shore() {
    let mut pond = wild::with_shore();
    assert!(model::still_water(&pond.site()));
    assert_eq!(levels(&pond).len(), 3, "the pond and two puddles");
    assert_eq!(pond.banks_in(&pond.state), 42);
    pond.card.steps = 10_000;
    assert_lies_still(&pond);
}

/// A pond whose surface is at 1,000,000, with a shore, a cape from the north and behind it a puddle of its own level; so deep in its
/// deepest cell, (1, 1).
fn pond_on_numbers(deepest: i32) -> Wild {
    let mut pond = Wild::empty(Card { columns: 4, rows: 3, dx: 1_000_000, dy: 1_000_000, dt: 100, steps: 100 });
    pond.ground = [
        [1_200_000, 1_000_000, 700_000, 1_500_000],
        [1_000_000, 200_000, 400_000, 1_000_000],
        [1_300_000, 600_000, 1_100_000, 900_000],
    ]
    .concat();
    pond.state[..12].copy_from_slice(&[[0, 0, 300_000, 0], [0, deepest, 600_000, 0], [0, 400_000, 0, 50_000]].concat());
    pond
}

/// 1 µm too much is no still water, but rounds to no slope; 2 µm run out on all sides, over banks that were just as high as the water too.
#[test]
fn a_pond_on_numbers() {
    let level = pond_on_numbers(800_000);
    assert!(model::still_water(&level.site()));
    assert_lies_still(&level);
    let raised = pond_on_numbers(800_001);
    assert!(!model::still_water(&raised.site()));
    assert_lies_still(&raised);
    let mut moving = pond_on_numbers(800_002);
    let mut next = moving.state.clone();
    assert_eq!(library::step(&mut Rng::new(1), moving.card, &moving.ground, &moving.state, &mut next), 0);
    for way in moving.ways_out(5) {
        moving.state[way.face] = way.sign;
    }
    assert_eq!(next, moving.state);
}

/// The sheet's pond over and over, on 128×128 cells.
#[test]
fn the_largest() {
    let pond = wild::with_shore();
    let (columns, rows) = (pond.card.columns as usize, pond.card.rows as usize);
    let mut site = Wild::empty(Card { columns: 128, rows: 128, steps: 300, ..pond.card });
    for k in 0..site.ground.len() {
        let cell = k / 128 % rows * columns + k % 128 % columns;
        site.ground[k] = pond.ground[cell];
        site.state[k] = pond.state[cell];
    }
    assert!(model::still_water(&site.site()));
    assert_eq!(site.banks_in(&site.state), 4_320);
    assert_lies_still(&site);
}

/// A card of up to 20 columns and rows, now and then of 128 of either.
fn card(rng: &mut Rng) -> Card {
    let (columns, rows) = match rng.below(40) {
        0 => (128, rng.between(1, 3)),
        1 => (rng.between(1, 3), 128),
        _ => (rng.between(1, 20), rng.between(1, 20)),
    };
    Card { columns: columns as u32, rows: rows as u32, ..wild::card(rng) }
}

#[test]
fn random_ponds() {
    let (mut with_shores, mut just_as_high, mut of_many_levels) = (0, 0, 0);
    trials("ponds", 2_000, |rng| {
        let card = card(rng);
        let pond = wild::pond(rng, card);
        let mut next = vec![-7; pond.state.len()];
        assert_eq!(library::step(rng, pond.card, &pond.ground, &pond.state, &mut next), 0);
        assert!(next == pond.state, "still water stays as it is");
        assert_lies_still(&pond);
        let mut pairs = pond.pairs_in(&pond.state);
        pairs.retain(Pair::bank_beside_water);
        with_shores += u64::from(!pairs.is_empty());
        just_as_high += u64::from(pairs.iter().any(|cells| cells.k.surface() == cells.l.surface()));
        of_many_levels += u64::from(levels(&pond).len() > 1);
    });
    println!(
        "ponds: {with_shores} with shores, {just_as_high} with a bank just as high as the water, {of_many_levels} of several levels"
    );
    assert!(single() || (with_shores > 1_000 && just_as_high > 1_000 && of_many_levels > 400));
}

/// Raises or lowers the water of a wet cell, or lowers a bank below the water beside it, by so many micrometres.
fn break_pond(rng: &mut Rng, pond: &mut Wild, micrometres: i32) {
    let cell = rng.below(pond.ground.len() as u64) as usize;
    if pond.state[cell] > 0 {
        let off = pond.state[cell] + micrometres * rng.pick(&[1, -1]);
        pond.state[cell] = off.clamp(0, wild::HEIGHT as i32);
        return;
    }
    let wet = pond.ways_out(cell).into_iter().map(|way| way.beside).filter(|&beside| pond.state[beside] > 0);
    if let Some(highest) = wet.map(|beside| pond.ground[beside] + pond.state[beside]).max() {
        pond.ground[cell] = highest - micrometres;
    }
}

/// The rise whose slope is the first that is not rounded to 0: 9,806,650·dt·rise ≥ 1000·d.
fn least_rise(dt: u32, d: u32) -> i64 {
    let (force, side) = (9_806_650 * i64::from(dt), 1_000 * i64::from(d));
    (side + force - 1) / force
}

#[test]
fn broken_ponds() {
    let (mut moved, mut stayed) = (0, 0);
    trials("broken ponds", 3_000, |rng| {
        let card = card(rng);
        let mut pond = wild::pond(rng, card);
        let micrometres = rng.scaled(1, 3 * least_rise(card.dt, card.dx.max(card.dy)));
        break_pond(rng, &mut pond, micrometres as i32);
        if model::check(&pond.site()) != 0 || model::still_water(&pond.site()) {
            return;
        }
        let mut next = vec![-7; pond.state.len()];
        assert_eq!(library::step(rng, pond.card, &pond.ground, &pond.state, &mut next), 0);
        let sloping = model::carried_parts(&pond.site()).iter().flatten().any(|carried| carried.slope != 0);
        assert_eq!(next != pond.state, sloping, "it moves exactly where some slope is not 0");
        if sloping {
            moved += 1;
        } else {
            assert_lies_still(&pond);
            stayed += 1;
        }
    });
    println!("broken ponds: {moved} moved, {stayed} were broken by too little for a slope");
    assert!(single() || (moved > 400 && stayed > 200));
}

/// How many micrometres it takes, by which a cell stands higher than the other or a bank lower than the water: on both sides.
#[test]
fn how_much_it_takes_to_move() {
    for (d, dt, least) in
        [(20_000_000, 1, 2_040), (1_000_000, 1, 102), (20_000_000, 1_000, 3), (1_000_000, 100, 2), (100_000, 1_000, 1)]
    {
        assert_eq!(i64::from(least), least_rise(dt, d));
        let moves = |ground: i32, heights: [i32; 2]| {
            let mut pond = Wild::empty(Card { columns: 2, rows: 1, dx: d, dy: d, dt, steps: 0 });
            pond.ground[1] = ground;
            pond.state[..2].copy_from_slice(&heights);
            let mut next = vec![-7; pond.state.len()];
            assert_eq!(library::step(&mut Rng::new(1), pond.card, &pond.ground, &pond.state, &mut next), 0);
            next != pond.state
        };
        assert!(!moves(2_000_000, [1_000_000, 0]), "a bank 1 m above the water");
        for (rise, expected) in [(0, false), (least - 1, false), (least, true)] {
            assert_eq!(moves(0, [1_000_000 + rise, 1_000_000]), expected, "{rise} µm, sides {d}, dt {dt}");
            assert_eq!(moves(1_000_000 - rise, [1_000_000, 0]), expected, "a bank {rise} µm lower, sides {d}, dt {dt}");
        }
    }
}
