//! Random lists of pumps: good ones, and ones that were hurt.

use super::{bounded, Wild};
use crate::model;
use crate::rng::Rng;
use water::raw::Card;

/// The greatest amount, in and out.
pub const AMOUNT: i32 = 1_000_000;

/// A list of pumps that fits a site, whose card is in range: none, a few, many or as many as there may be.
pub fn pumps(rng: &mut Rng, site: &Wild) -> Vec<i32> {
    let count = match rng.below(20) {
        0 => 0,
        1 => 64,
        2 => 63,
        3..=6 => rng.between(4, 62),
        _ => rng.between(1, 4),
    };
    // of one temper, so that a list may be gentle, or all pumps or all inlets
    let (most, way) = (rng.scaled(1, AMOUNT.into()) as i32, rng.pick(&[0, 0, 0, 1, -1]));
    (0..count).flat_map(|_| [cell(rng, site), amount(rng, most, way)]).collect()
}

/// A cell of the site: the first, the last, one of a few so that several pumps meet there, the fullest, or any.
fn cell(rng: &mut Rng, site: &Wild) -> i32 {
    let cells = site.ground.len() as i64;
    let place = match rng.below(10) {
        0 => 0,
        1 => cells - 1,
        2..=4 => rng.between(0, (cells - 1).min(2)),
        5 => (0..cells).max_by_key(|&k| site.state[k as usize]).expect("a site has a cell"),
        _ => rng.between(0, cells - 1),
    };
    place as i32
}

/// An amount up to this one, now and then 0, one of its ends or of the range's; out and in, or one way only.
fn amount(rng: &mut Rng, most: i32, way: i32) -> i32 {
    let size = match rng.below(12) {
        0 => 0,
        1 => 1,
        2 => most,
        3 => AMOUNT,
        _ => rng.between(0, most.into()) as i32,
    };
    size * if way == 0 { rng.pick(&[1, -1]) } else { way }
}

/// A list of pumps for any site, a hurt one too; in a third of the cases one thing is wrong with it, or two.
pub fn any_pumps(rng: &mut Rng, site: &Wild) -> Vec<i32> {
    // cells are picked from a site of the card's sizes, whatever lists the hurt site has
    let card = bounded(&site.card);
    let sizes = Card { columns: card.columns.max(1), rows: card.rows.max(1), ..card };
    let mut model_site = Wild::empty(sizes);
    let heights = site.state.len().min(model_site.ground.len());
    model_site.state[..heights].copy_from_slice(&site.state[..heights]);
    let mut list = pumps(rng, &model_site);
    if rng.percent(35) {
        for _ in 0..rng.pick(&[1, 1, 2]) {
            hurt_pumps(rng, &sizes, &mut list);
        }
    }
    list
}

/// Makes one thing wrong: a length, a cell or an amount. Of a list without pumps only the length can be.
fn hurt_pumps(rng: &mut Rng, card: &Card, list: &mut Vec<i32>) {
    let pumps = list.len() as u64 / 2;
    match rng.below(10) {
        0..=3 => {
            let length = rng.pick(&[list.len() + 1, list.len().saturating_sub(1), 1, 127, 128, 129, 130, 131, 132, 300]);
            // words at random: whatever they are, the length comes first
            list.resize_with(length, || rng.next() as i32);
        }
        kind if pumps > 0 => {
            let pump = 2 * rng.below(pumps) as usize;
            let cells = model::cells(card) as i32;
            if kind < 7 {
                list[pump] = rng.pick(&[-1, cells, cells + 1, -cells, i32::MIN, i32::MAX, 16_384, 65_536]);
            } else {
                list[pump + 1] = rng.pick(&[-AMOUNT - 1, AMOUNT + 1, i32::MIN, i32::MAX, -2 * AMOUNT]);
            }
        }
        _ => list.push(0),
    }
}
