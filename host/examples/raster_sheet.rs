//! Makes a site sheet of a surveyor's raster, its ground under water: time step in ms, steps wanted, and either so many metres of rain on every
//! cell or a level in metres up to which the ground is flooded. Run from the repository's root:
//!
//!     cargo run --release --manifest-path host/Cargo.toml --example raster_sheet -- examples/yard.asc 40 300 rain 0.12 > yard.sheet
//!     ./play yard.sheet
//!
//! A raster that is refused is told by its number.

use std::io::Write;
use water::{calls, Reading, Site};

/// What there is to be on the ground, in metres.
#[derive(Clone, Copy)]
enum Water {
    Rain(f64),
    Level(f64),
}

/// The two words that say so.
fn water(kind: &str, metres: &str) -> Option<Water> {
    let metres = metres.parse().ok()?;
    match kind {
        "rain" => Some(Water::Rain(metres)),
        "level" => Some(Water::Level(metres)),
        _ => None,
    }
}

/// So many metres in micrometres; of rain as an inspector's reading, which refuses what is no height.
fn micrometres(water: Water) -> Result<i32, String> {
    match water {
        Water::Rain(metres) => match calls::staff(Reading::Metres(metres)) {
            Ok(height) => Ok(height.unwrap_or(0)),
            Err(refusal) => Err(format!("{metres} m of rain: {refusal}")),
        },
        Water::Level(metres) if metres.abs() <= 50.0 => Ok((metres * 1e6).round() as i32),
        Water::Level(metres) => Err(format!("a level of {metres} m: not -50 to 50")),
    }
}

/// The sheet of a raster's site under water.
fn sheet(raster: &[u8], dt: u32, steps: u32, water: Water) -> Result<Vec<u8>, String> {
    let dry = Site::read_raster(raster, dt, steps).map_err(|refusal| format!("the raster: {refusal}"))?;
    let amount = micrometres(water)?;
    let height = |&ground: &i32| match water {
        Water::Rain(_) => amount,
        Water::Level(_) => (amount - ground).max(0),
    };
    let heights: Vec<i32> = dry.ground().iter().map(height).collect();
    let site = Site::still(dry.card(), dry.ground().to_vec(), &heights).map_err(|refusal| format!("the water: {refusal}"))?;
    Ok(site.write_sheet())
}

/// The sheet that the words of a command ask for.
fn asked_for(words: &[String]) -> Result<Vec<u8>, String> {
    let usage = || "usage: raster_sheet RASTER DT STEPS rain|level METRES".to_string();
    let (file, dt, steps, kind, metres) = match words {
        [file, dt, steps, kind, metres] => (file, dt, steps, kind, metres),
        _ => return Err(usage()),
    };
    let time = |word: &String| word.parse::<u32>().map_err(|_| usage());
    let water = water(kind, metres).ok_or_else(usage)?;
    let raster = std::fs::read(file).map_err(|error| format!("{file}: {error}"))?;
    sheet(&raster, time(dt)?, time(steps)?, water)
}

fn main() {
    let words: Vec<String> = std::env::args().skip(1).collect();
    let done = asked_for(&words).and_then(|sheet| std::io::stdout().write_all(&sheet).map_err(|error| error.to_string()));
    if let Err(message) = done {
        eprintln!("raster_sheet: {message}");
        std::process::exit(2);
    }
}

#[cfg(test)]
const TWO: &[u8] = b"ncols 2\nnrows 1\nxllcorner 0\nyllcorner 0\ncellsize 1\n0.25 -0.5\n";

#[test]
fn rain_and_a_level() {
    let heights = |water| Site::read_sheet(&sheet(TWO, 100, 2, water).unwrap()).unwrap().heights().to_vec();
    assert_eq!(heights(Water::Rain(0.08)), [80_000, 80_000]);
    assert_eq!(heights(Water::Level(0.1)), [0, 600_000]);
    assert_eq!(heights(Water::Level(-1.0)), [0, 0]);
}

#[test]
fn what_is_refused_is_told() {
    let told = |raster: &[u8], dt, water| sheet(raster, dt, 2, water).unwrap_err();
    assert!(told(b"ncols 2", 100, Water::Rain(0.0)).ends_with("(10)"));
    assert!(told(TWO, 0, Water::Rain(0.0)).ends_with("(1)"));
    assert!(told(TWO, 100, Water::Rain(-1.0)).ends_with("(3)"));
    assert!(told(TWO, 100, Water::Level(f64::NAN)).ends_with("not -50 to 50"));
    assert!(told(TWO, 100, Water::Level(50.0)).ends_with("(3)"), "over 50 m deep");
    assert!(water("snow", "1").is_none() && water("rain", "much").is_none());
}

/// The example raster, under the rain that examples/README.md has: it does all its steps, and the hollow fills.
#[test]
fn the_yard_does_all_its_steps() {
    let raster = include_bytes!("../../examples/yard.asc");
    let mut site = Site::read_sheet(&sheet(raster, 40, 300, Water::Rain(0.12)).unwrap()).unwrap();
    let tally = site.run();
    assert_eq!((tally.steps, tally.reason), (300, None));
    // the deepest cell of the hollow, and the top of the heap
    assert_eq!((site.depth_text(11, 3), site.depth_text(4, 9)), ("46 cm".to_string(), "<1 cm".to_string()));
}
