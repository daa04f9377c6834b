//! Ponds: still water in the hollows of uneven ground, each filled to a level of its own.

use super::{edged, Wild, HEIGHT};
use crate::model;
use crate::rng::Rng;
use water::raw::Card;
use water::Site;

/// examples/pond-with-shore.sheet: a pond with a dry shore and an island, and two puddles on the slope beside it, each at a level of its own.
pub fn with_shore() -> Wild {
    let site = Site::read_sheet(include_bytes!("../../../../examples/pond-with-shore.sheet")).expect("a good sheet");
    Wild { card: site.card(), ground: site.ground().to_vec(), state: site.state().to_vec() }
}

/// Still water as document 02's [2] has it: level in each hollow, no other water beside a hollow's, and banks at or above it all around.
pub fn pond(rng: &mut Rng, card: Card) -> Wild {
    let mut site = Wild { ground: ground(rng, &card), ..Wild::empty(card) };
    for _ in 0..rng.between(2, 8 + (site.ground.len() as i64 / 8).min(60)) {
        let start = rng.below(site.ground.len() as u64) as usize;
        let level = level(rng, &site, start);
        fill(&mut site, start, level);
    }
    assert!(model::still_water(&site.site()), "a pond is still water");
    site
}

/// Steps, a slope with hollows, cliffs from the lowest ground to the highest, or rough ground.
fn ground(rng: &mut Rng, card: &Card) -> Vec<i32> {
    let (kind, rough) = (rng.below(5), rng.scaled(1, HEIGHT));
    let (eastward, northward) = (rng.between(-rough, rough) / 128, rng.between(-rough, rough) / 128);
    let columns = i64::from(card.columns);
    let ground = |k: i64| match kind {
        0 | 1 => rough / 2 * rng.between(-2, 2),
        2 => eastward * (k % columns) + northward * (k / columns) + rng.between(0, rough / 64),
        3 => rng.pick(&[-HEIGHT, -HEIGHT + 1, -1, 0, 1, HEIGHT - 1, HEIGHT]),
        _ => edged(rng, -rough, rough),
    };
    (0..model::cells(card) as i64).map(ground).map(|ground| ground.clamp(-HEIGHT, HEIGHT) as i32).collect()
}

/// A level to fill the hollow around a cell to: mostly that of a ground on the site, so that a bank is often just as high as the water.
fn level(rng: &mut Rng, site: &Wild, start: usize) -> i64 {
    let beside: Vec<i32> = site.ways_out(start).iter().map(|way| site.ground[way.beside]).collect();
    match (rng.below(8), beside.iter().min()) {
        (0..=2, Some(&lowest)) => lowest.into(),
        (3 | 4, Some(_)) => rng.pick(&beside).into(),
        (5 | 6, _) => rng.pick(&site.ground).into(),
        _ => i64::from(site.ground[start]) + rng.scaled(1, HEIGHT),
    }
}

/// Fills the hollow around a cell up to a level, unless it would be too deep or there is other water in it or beside it.
fn fill(site: &mut Wild, start: usize, level: i64) {
    let hollow = hollow(site, start, level);
    let is_dry = |cell: usize| site.state[cell] == 0;
    let is_free = |cell: usize| is_dry(cell) && site.ways_out(cell).iter().all(|way| is_dry(way.beside));
    if hollow.iter().all(|&(cell, depth)| depth <= HEIGHT && is_free(cell)) {
        for (cell, depth) in hollow {
            site.state[cell] = depth as i32;
        }
    }
}

/// The cells that water at a level spreads to from one of them, and how deep it is in each.
fn hollow(site: &Wild, start: usize, level: i64) -> Vec<(usize, i64)> {
    let mut reached = vec![false; site.ground.len()];
    let (mut hollow, mut next) = (Vec::new(), vec![start]);
    while let Some(cell) = next.pop() {
        let depth = level - i64::from(site.ground[cell]);
        if depth > 0 && !reached[cell] {
            reached[cell] = true;
            hollow.push((cell, depth));
            next.extend(site.ways_out(cell).iter().map(|way| way.beside));
        }
    }
    hollow
}
