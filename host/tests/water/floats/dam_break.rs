//! A dam break in one dimension against Stoker's exact solution.
//!
//! A dam at x = 0 parts still water of heights hl and hr < hl over flat ground. When it goes, a rarefaction runs to the west and a
//! shock to the east, with a plateau (hm, um) between them: um = 2(cl − cm) across the rarefaction, c = √(g·h), and
//! um = (hm − hr)·√(g/2·(1/hm + 1/hr)) across the shock, which runs at hm·um/(hm − hr).

use super::scheme::{step, Water};
use water::{Card, Site};

// metres and seconds
const GRAVITY: f64 = 9.80665;
const WEST: f64 = 2.0;
const EAST: f64 = 1.0;
const LENGTH: f64 = 128.0;
const TIME: f64 = 8.0;

struct Stoker {
    plateau: f64,
    speed: f64,
    shock: f64,
}

impl Stoker {
    fn new() -> Stoker {
        let by_rarefaction = |h: f64| 2.0 * ((GRAVITY * WEST).sqrt() - (GRAVITY * h).sqrt());
        let by_shock = |h: f64| (h - EAST) * (GRAVITY / 2.0 * (1.0 / h + 1.0 / EAST)).sqrt();
        // the first falls and the second rises with h
        let (mut low, mut high) = (EAST, WEST);
        for _ in 0..200 {
            let middle = (low + high) / 2.0;
            if by_rarefaction(middle) > by_shock(middle) {
                low = middle;
            } else {
                high = middle;
            }
        }
        let speed = by_rarefaction(low);
        Stoker { plateau: low, speed, shock: low * speed / (low - EAST) }
    }

    /// The height at x metres from the dam after t seconds.
    fn height(&self, x: f64, t: f64) -> f64 {
        let (c_west, c_plateau) = ((GRAVITY * WEST).sqrt(), (GRAVITY * self.plateau).sqrt());
        let pace = x / t;
        if pace < -c_west {
            WEST
        } else if pace < self.speed - c_plateau {
            (2.0 * c_west - pace).powi(2) / (9.0 * GRAVITY)
        } else if pace < self.shock {
            self.plateau
        } else {
            EAST
        }
    }

    /// The mean distance in metres between these heights (in µm) and the exact ones, cell by cell, over the height of the dam.
    fn error(&self, heights: &[f64]) -> f64 {
        let side = LENGTH / heights.len() as f64;
        let off = |(k, h): (usize, &f64)| (h / 1e6 - self.height((k as f64 + 0.5) * side - LENGTH / 2.0, TIME)).abs();
        heights.iter().enumerate().map(off).sum::<f64>() / heights.len() as f64 / (WEST - EAST)
    }
}

/// The dam on so many cells, eastward, or northward if `turned`.
fn dam(cells: u32, dt: u32, turned: bool) -> Site {
    let side = (LENGTH * 1e6) as u32 / cells;
    let (columns, rows) = if turned { (1, cells) } else { (cells, 1) };
    let card = Card { columns, rows, dx: side, dy: side, dt, steps: (TIME * 1_000.0) as u32 / dt };
    let heights: Vec<i32> = (0..cells).map(|k| ((if k < cells / 2 { WEST } else { EAST }) * 1e6) as i32).collect();
    Site::still(card, vec![0; cells as usize], &heights).unwrap()
}

/// The errors of the library and of the doubles at the end.
fn errors(cells: u32, dt: u32) -> (f64, f64) {
    let exact = Stoker::new();
    let mut site = dam(cells, dt, false);
    let (card, mut water) = (site.card(), Water::of(&site.card(), site.state()));
    for _ in 0..card.steps {
        water = step(&card, site.ground(), &water);
    }
    let tally = site.run();
    assert_eq!((tally.steps, tally.reason), (card.steps, None));
    let mut turned = dam(cells, dt, true);
    turned.run();
    assert_eq!(turned.heights(), site.heights(), "northward as eastward");
    let heights: Vec<f64> = site.heights().iter().map(|&h| f64::from(h)).collect();
    (exact.error(&heights), exact.error(&water.heights))
}

#[test]
fn stoker() {
    let exact = Stoker::new();
    println!(
        "floats, dam break: exact plateau {:.4} m at {:.4} m/s, shock at {:.4} m/s",
        exact.plateau, exact.speed, exact.shock
    );
    let mut last = f64::INFINITY;
    for (cells, dt, bound) in [(32, 160, 0.025), (64, 80, 0.017), (128, 40, 0.010)] {
        let (ours, doubles) = errors(cells, dt);
        println!(
            "floats, dam break: {cells} cells, dt {dt} ms: mean error {:.4} of the dam's height, the doubles {:.4}",
            ours, doubles
        );
        assert!(ours < bound, "{cells} cells: {ours}");
        assert!(ours < last / 1.3, "finer cells come nearer");
        assert!((ours - doubles).abs() < 1e-5, "the roundings do not show");
        last = ours;
    }
}
