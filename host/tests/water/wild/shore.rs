//! Shores that move: water that sloshes against its banks, and water that leaves terraces dry.

use super::{brisk, card, edged, gentle_rise, pond, whole, Wild, HEIGHT};
use crate::rng::Rng;

/// A pond whose surfaces are off level by what the time step stands, with velocities in the water, and on some sites left on banks too.
pub fn sloshing(rng: &mut Rng) -> Wild {
    let card = card(rng);
    let mut site = pond(rng, card);
    let steepest = gentle_rise(&card) / rng.pick(&[3, 12, 100]) + 1;
    let rough = rng.scaled(1, steepest);
    for k in 0..site.ground.len() {
        if site.state[k] > 0 && rng.percent(70) {
            site.state[k] = (i64::from(site.state[k]) + edged(rng, -rough, rough)).clamp(0, HEIGHT) as i32;
        }
    }
    let (speed, left) = (brisk(&card) / rng.pick(&[1, 4, 16, 1_000]), rng.pick(&[0, 20, 100]));
    for (place, cells) in site.inner_faces().into_iter().zip(site.pairs_in(&site.state)) {
        let in_water = !cells.k.is_dry() && !cells.l.is_dry();
        if in_water || rng.percent(left) {
            site.state[place] = edged(rng, -speed, speed) as i32;
        }
    }
    site
}

/// Water on terraces, grounds and heights in whole units and now and then 1 µm off, so that banks are often just as high as the water;
/// some cells are emptied by one face, which may make a bank of them or of the cell beside.
pub fn terraces(rng: &mut Rng) -> Wild {
    let card = card(rng);
    let card = whole(rng, card);
    let mut site = Wild::empty(card);
    let unit = rng.scaled(4, gentle_rise(&card) / 4 + 4);
    let (off, slow) = (rng.pick(&[0, 0, 20]), rng.pick(&[0, 0, 30]));
    for k in 0..site.ground.len() {
        let ground = unit * rng.between(0, 3) + if rng.percent(off) { rng.between(-1, 1) } else { 0 };
        site.ground[k] = ground.min(HEIGHT) as i32;
        site.state[k] = (unit * rng.pick(&[0, 0, 1, 2])).min(HEIGHT) as i32;
    }
    let speed = brisk(&card) / 8;
    for place in site.inner_faces() {
        if rng.percent(slow) {
            site.state[place] = edged(rng, -speed, speed) as i32;
        }
    }
    for _ in 0..rng.below(2 + site.ground.len() as u64 / 6) {
        let cell = rng.below(site.ground.len() as u64) as usize;
        empty(rng, &mut site, cell);
    }
    site
}

/// Has one face let all of a cell's water out, and the others stand still.
fn empty(rng: &mut Rng, site: &mut Wild, cell: usize) {
    let ways = site.ways_out(cell);
    if ways.is_empty() {
        return;
    }
    for way in &ways {
        site.state[way.face] = 0;
    }
    let way = rng.pick(&ways);
    site.state[way.face] = way.sign * (1_000 * i64::from(way.side) / i64::from(site.card.dt)) as i32;
}
