//! Random sites: good ones of every temper, ponds and shores, sites on the brink of a refusal, and sites that were hurt; and pumps for them.

mod brink;
mod hurt;
mod pond;
mod pumps;
mod shore;
mod site;

pub use brink::of_share;
pub use pond::{pond, with_shore};
pub use pumps::{any_pumps, pumps};
pub use shore::{sloshing, terraces};
pub use site::Wild;

use crate::model::{self, TURNS};
use crate::rng::Rng;
use water::raw::Card;

pub const HEIGHT: i64 = 50_000_000;
pub const SPEED: i64 = 20_000_000;
pub const SIDE: (i64, i64) = (100_000, 20_000_000);

/// A site that passes the first three checks.
pub fn good(rng: &mut Rng) -> Wild {
    let mut site = match rng.below(18) {
        0 => brink::of_limit(rng),
        1 => brink::of_height(rng),
        2 => brink::of_speed(rng),
        3 => brink::of_share(rng),
        4 => shore::sloshing(rng),
        5 => shore::terraces(rng),
        _ => {
            let card = card(rng);
            tempered(rng, card)
        }
    };
    for turn in &TURNS {
        if rng.percent(30) {
            site = site.turned(turn);
        }
    }
    assert_eq!(model::check(&site.site()), 0, "good sites pass the first three checks");
    site
}

/// A site, hurt in a third of the cases, in one way or in two.
pub fn any(rng: &mut Rng) -> Wild {
    let mut site = good(rng);
    if rng.percent(35) {
        hurt::hurt(rng, &mut site);
        if rng.percent(30) {
            hurt::hurt(rng, &mut site);
        }
    }
    site
}

// ---- cards

/// The card with at most 128 columns and rows, so that lists of its lengths can be made whatever a hurt card says.
pub fn bounded(card: &Card) -> Card {
    Card { columns: card.columns.min(128), rows: card.rows.min(128), ..*card }
}

fn size(rng: &mut Rng) -> (u32, u32) {
    let most = match rng.below(2_000) {
        0 => return (128, 128),
        1..=200 => return (1, rng.between(1, 128) as u32),
        201..=400 => 16,
        401..=420 => 40,
        421..=900 => 9,
        _ => 4,
    };
    (rng.between(1, most) as u32, rng.between(1, most) as u32)
}

fn side(rng: &mut Rng) -> u32 {
    match rng.below(10) {
        0 => SIDE.0 as u32,
        1 => SIDE.1 as u32,
        2 => 1_000_000,
        _ => rng.scaled(SIDE.0, SIDE.1) as u32,
    }
}

pub fn card(rng: &mut Rng) -> Card {
    let (columns, rows) = size(rng);
    let dx = side(rng);
    let dy = if rng.percent(30) { dx } else { side(rng) };
    let dt = match rng.below(10) {
        0 => 1,
        1 => 1_000,
        _ => rng.scaled(1, 1_000) as u32,
    };
    Card { columns, rows, dx, dy, dt, steps: rng.below(13) as u32 }
}

/// The card with sides and a time step with which a velocity that empties a cell in one step is a whole number in range.
fn whole(rng: &mut Rng, card: Card) -> Card {
    let mut side = || 1_000 * rng.between(100, 4_000) as u32;
    Card { dx: side(), dy: side(), dt: rng.pick(&[200, 250, 500, 1_000]), ..card }
}

// ---- good sites

/// The greatest rise of the surface whose slope keeps within the speeds, over the shorter side.
fn gentle_rise(card: &Card) -> i64 {
    (SPEED * i64::from(card.dx.min(card.dy)) * 1_000 / (9_806_650 * i64::from(card.dt))).clamp(4, HEIGHT)
}

/// A speed at which a cell that lets water out over all four faces just keeps the step limit.
fn brisk(card: &Card) -> i64 {
    let (dx, dy, dt) = (i64::from(card.dx), i64::from(card.dy), i64::from(card.dt));
    (500 * dx * dy / (dt * (dx + dy))).min(SPEED)
}

fn tempered(rng: &mut Rng, card: Card) -> Wild {
    let mut site = Wild::empty(card);
    let rise = match rng.below(10) {
        0 | 1 => HEIGHT,
        2 => gentle_rise(&card),
        3 | 4 => gentle_rise(&card) / 3,
        _ => gentle_rise(&card) / 12,
    };
    let rise = rng.scaled(1, rise.max(1));
    // now and then filled to the brim
    let floor = if rng.percent(15) { HEIGHT - rise } else { rng.between(0, HEIGHT - rise) * rng.between(0, 1) };
    let (dry, level) = (rng.pick(&[0, 0, 0, 20, 70]), rng.percent(20));
    for k in 0..site.ground.len() {
        let height = if rng.percent(dry) { 0 } else { floor + edged(rng, 0, rise) };
        site.state[k] = height as i32;
        site.ground[k] = if level { (HEIGHT / 2 - height) as i32 } else { edged(rng, -rise, rise) as i32 };
    }
    let speed = match rng.below(12) {
        0 | 1 => 0,
        2..=5 => brisk(&card) / 16,
        6 | 7 => brisk(&card),
        8 => (brisk(&card) * 3 / 2).min(SPEED),
        9 => (brisk(&card) * 2).min(SPEED),
        10 => rng.scaled(1, SPEED),
        _ => SPEED,
    };
    for place in site.inner_faces() {
        site.state[place] = edged(rng, -speed, speed) as i32;
    }
    site
}

/// A number of a range, now and then one of its ends or the middle.
fn edged(rng: &mut Rng, low: i64, high: i64) -> i64 {
    match rng.below(12) {
        0 => low,
        1 => high,
        2 => (low + high) / 2,
        _ => rng.between(low, high),
    }
}
