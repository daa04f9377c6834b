//! Random questions to the search.

use super::{above, below, both, edge_of, odd_floats};
use crate::given::Given;
use crate::lent::hurt_length;
use crate::library::{self, Question};
use crate::model;
use crate::rng::Rng;
use crate::trials::{single, trials};
use crate::wild::{self, Wild};
use water::raw::{Card, Chamber, Found, Window};

/// A place along one direction: on a line between cells, at an end, beside one of these, or anywhere.
fn place(rng: &mut Rng, side: u32, count: u32) -> i64 {
    let (side, count) = (i64::from(side), i64::from(count));
    let line = side * rng.between(0, count);
    match rng.below(6) {
        0 => line,
        1 => (line + rng.pick(&[-1, 1])).clamp(0, side * count),
        2 => rng.pick(&[0, side * count]),
        _ => rng.between(0, side * count),
    }
}

fn register(rng: &mut Rng, card: &Card) -> Vec<Chamber> {
    let count = match rng.below(100) {
        0 => 1_000,
        1..=9 => 0,
        10..=19 => rng.between(20, 120),
        _ => rng.between(1, 12),
    };
    let Card { columns, rows, dx, dy, .. } = wild::bounded(card);
    (0..count).map(|_| Chamber { x: place(rng, dx, columns), y: place(rng, dy, rows) }).collect()
}

/// An edge drawn by a finger: on a chamber, one float beside it, a fraction beside it, far off, or odd.
fn edge(rng: &mut Rng, near: i64, far: f64) -> f64 {
    let near = near as f64;
    match rng.below(24) {
        0..=3 => near,
        4..=6 => above(near),
        7..=9 => below(near),
        10 => near + 0.25,
        11 => near - 0.25,
        12 => rng.pick(&odd_floats()[3..]),
        _ => far,
    }
}

fn window(rng: &mut Rng, card: &Card, chambers: &[Chamber]) -> Window {
    let near = if chambers.is_empty() { Chamber { x: 0, y: 0 } } else { rng.pick(chambers) };
    let (width, height) = (card.dx as f64 * 128.0, card.dy as f64 * 128.0);
    let mut window = Window {
        west: edge(rng, near.x, -width),
        south: edge(rng, near.y, -1.0),
        east: edge(rng, near.x, width),
        north: edge(rng, near.y, height),
    };
    if rng.percent(4) {
        let odd = rng.pick(&odd_floats());
        *edge_of(&mut window, rng.below(4) as usize) = odd;
    }
    window
}

/// A depth at which the site's own heights decide: one of them, one beside it, or an end of the range.
fn depth(rng: &mut Rng, site: &Wild) -> i32 {
    let kept = site.state.first().copied().unwrap_or(0).clamp(0, 50_000_000);
    match rng.below(40) {
        0 => rng.pick(&[-1, 50_000_001, i32::MIN, i32::MAX]),
        1..=9 => kept,
        10..=13 => kept + 1,
        14..=25 => 0,
        26 => 50_000_000,
        _ => rng.scaled(1, 50_000_000) as i32,
    }
}

fn hurt_register(rng: &mut Rng, card: &Card, chambers: &mut [Chamber]) {
    let length = chambers.len() as u64;
    if length == 0 {
        return;
    }
    let chamber = &mut chambers[rng.below(length) as usize];
    let (width, height) = (i64::from(card.columns) * i64::from(card.dx), i64::from(card.rows) * i64::from(card.dy));
    match rng.below(2) {
        0 => chamber.x = rng.pick(&[-1, width + 1, i64::MIN, i64::MAX, chamber.x + (1 << 32)]),
        _ => chamber.y = rng.pick(&[-1, height + 1, i64::MIN, i64::MAX, chamber.y + (1 << 32)]),
    }
}

#[test]
fn random_questions() {
    let mut given = Given::default();
    let mut listed = 0u64;
    trials("search", 22_000, |rng| {
        let site = if rng.percent(40) { wild::good(rng) } else { wild::any(rng) };
        let mut chambers = register(rng, &site.card);
        let window = window(rng, &site.card, &chambers);
        if rng.percent(4) {
            hurt_register(rng, &site.card, &mut chambers);
        }
        let question = Question { card: site.card, ground: &site.ground, state: &site.state, window, depth: depth(rng, &site) };
        let room = match rng.below(4) {
            0 => rng.below(3) as usize,
            1 => rng.between(0, chambers.len() as i64 + 3) as usize,
            _ => chambers.len(),
        };
        let (answer, _) = both(rng, question, &chambers, room);
        given.count(answer.number);
        if answer.number == 0 {
            listed += u64::from(answer.count);
        }
    });
    given.assert_often("search", &[0, 1, 2, 3, 8], 40);
    println!("search: {listed} chambers were listed in all");
    assert!(single() || listed >= 5_000);
}

/// Two lists of unequal length are refusal 2, whatever stands in them; 1 comes before it and 3 behind it.
#[test]
fn unequal_lists() {
    let mut given = Given::default();
    trials("unequal lists", 2_000, |rng| {
        let site = wild::any(rng);
        let chambers = register(rng, &site.card);
        let (mut xs, mut ys): (Vec<i64>, Vec<i64>) = chambers.iter().map(|chamber| (chamber.x, chamber.y)).unzip();
        // an empty list may still be empty when it is hurt
        while xs.len() == ys.len() {
            let list = if rng.percent(50) { &mut xs } else { &mut ys };
            hurt_length(rng, list);
        }
        let window = window(rng, &site.card, &chambers);
        let question = Question { card: site.card, ground: &site.ground, state: &site.state, window, depth: 0 };
        let answer = library::search_lists(rng, question, &xs, &ys, &mut vec![5; chambers.len()]);
        let number = if model::check(&site.site()) == 1 { 1 } else { 2 };
        assert_eq!(answer, Found { number, count: 0 });
        given.count(number);
    });
    given.assert_often("unequal lists", &[1, 2], 40);
}
