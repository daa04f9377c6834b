//! Draws docs/pumped-dry.svg: a flooded yard of 20 by 12 m at four moments while two pumps work where it is lowest and a burst pipe lets
//! water in at its western end, with what was added and taken until then. Seven lids are red as long as the library's own search finds at
//! least 3 cm of water over them. Run from host/:
//!
//!     cargo run --release --example pumped_dry > ../docs/pumped-dry.svg
//!
//! With slopes, in µm a metre, it draws nothing, and tells how far such yards come, and why no further:
//!
//!     cargo run --release --example pumped_dry 1500 5000 20000

mod picture;

use picture::Picture;
use std::ops::ControlFlow;
use water::{Card, Chamber, Pump, Site, Tally};

/// Cells of 1 m and steps of 100 ms, for 500 seconds.
const CARD: Card = Card { columns: 20, rows: 12, dx: 1_000_000, dy: 1_000_000, dt: 100, steps: 5_000 };

/// Two pumps of 30 litres a second each, and a pipe of 5: a litre a second on a square metre is 100 µm in a tenth of a second.
const PUMPS: [Pump; 3] = [
    Pump { column: 14, row: 4, amount: -3_000 },
    Pump { column: 15, row: 4, amount: -3_000 },
    Pump { column: 1, row: 9, amount: 500 },
];

/// What the drawn yard falls by, in µm a metre: 0.15 %.
const SLOPE: i32 = 1_500;

/// A yard that falls by so much a metre from all sides towards its pumps, under one level of water: in its highest corner there are 7.8 cm
/// whatever the slope, and the drawn one is up to 11 cm deep.
fn yard(card: Card, slope: i32) -> Site {
    let ground = |k: i32| slope * (2 * (k % 20) - 29).abs() / 2 + slope * (k / 20 - 4).abs();
    let ground: Vec<i32> = (0..240).map(ground).collect();
    // the highest corner is 43 half metres from the pumps
    let level = 110_000 + 43 * (slope - SLOPE) / 2;
    let heights: Vec<i32> = ground.iter().map(|ground| level - ground).collect();
    Site::still(card, ground, &heights).expect("a yard in range")
}

fn lids() -> Vec<Chamber> {
    [(2, 2), (4, 10), (7, 5), (9, 8), (11, 1), (13, 6), (17, 3)]
        .map(|(column, row)| Chamber { x: column * 1_000_000 + 500_000, y: row * 1_000_000 + 500_000 })
        .to_vec()
}

/// Micrometres of height, summed over cells, as cubic metres with one decimal, cut off and not rounded: no more is told than was there.
fn cubic_metres(heights: u64) -> String {
    let tenths = CARD.volume(heights) / 10_u128.pow(17);
    format!("{}.{} m³", tenths / 10, tenths % 10)
}

fn moved(added: u64, taken: u64) -> [String; 1] {
    [format!("{} in, {} out", cubic_metres(added), cubic_metres(taken))]
}

/// The report's balance: first volume and what came in are last volume and what went out, to the last cubic micrometre.
fn balances(first: u128, site: &Site, tally: &Tally) -> bool {
    first + CARD.volume(tally.added) == site.volume() + CARD.volume(tally.taken)
}

/// How far a yard of this slope comes in 1,000 seconds, in steps of `dt` ms and with pumps that move as much a second, and how much of its
/// water is left then.
fn tell(slope: i32, dt: u32) {
    let stages = CARD.dt / dt;
    let pumps = PUMPS.map(|pump| Pump { amount: pump.amount / stages as i32, ..pump });
    let mut site = yard(Card { dt, steps: 10_000, ..CARD }, slope);
    let first = site.volume();
    let (mut steps, mut reason) = (0, None);
    while reason.is_none() && steps < 10_000 * stages {
        let before = site.volume();
        let tally = site.run_with(&pumps);
        assert!(balances(before, &site, &tally), "the report balances");
        steps += tally.steps;
        reason = tally.reason;
    }
    let (seconds, left) = (f64::from(steps * dt) / 1e3, 100.0 * site.volume() as f64 / first as f64);
    let reason = reason.map_or("it goes on".to_string(), |reason| reason.to_string());
    println!("{slope} µm a metre, steps of {dt} ms: {seconds:.1} s, {left:.1} % left: {reason}");
}

fn main() {
    let slopes: Vec<i32> = std::env::args().skip(1).map(|slope| slope.parse().expect("a slope in µm a metre")).collect();
    if slopes.is_empty() {
        draw();
    }
    for slope in slopes {
        tell(slope, CARD.dt);
        tell(slope, CARD.dt / 4);
    }
}

fn draw() {
    let mut site = yard(CARD, SLOPE);
    let first = site.volume();
    let mut picture = Picture::new((11, 11), 110_000, lids(), 30_000);
    picture.pumps = PUMPS.to_vec();
    picture.lines = 1;
    picture.add(&site, "at the start", &moved(0, 0));
    let tally = site.run_in_slices_with(&PUMPS, 500, |site, tally| {
        assert!(balances(first, site, tally), "the report balances");
        let seconds = tally.steps * CARD.dt / 1000;
        if [250, 300, 500].contains(&seconds) {
            picture.add(site, &format!("after {seconds} seconds"), &moved(tally.added, tally.taken));
        }
        ControlFlow::Continue(())
    });
    assert_eq!(tally.reason, None, "the run does all its steps");
    picture.print(&site);
}
