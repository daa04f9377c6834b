//! How long a time step may be: the longest dt in ms that is accepted, as is every shorter one. Run from host/:
//!
//!     cargo run --release --example longest_step
//!
//! For each sheet in examples/ its run of as many steps as the sheet wants; for a channel with a steady flow, 128 cells of 1 m in a row with
//! 10 cm of water at 2 m/s over every inner face, its first step, and its first 10 and 40, in which the channel's ends send waves.

use std::path::Path;
use water::{Card, Refusal, Site};

/// Why this site's run of so many steps of dt stops, if it does.
fn stops(site: &Site, dt: u32, steps: u32) -> Option<Refusal> {
    let mut site = site.clone();
    site.set_time(dt, steps).expect("a time in range");
    site.run().reason
}

fn tell(what: &str, site: &Site, steps: u32) {
    match (1..=1_000).find_map(|dt| Some((dt, stops(site, dt, steps)?))) {
        Some((dt, reason)) => println!("{what}, {steps} steps: {} ms; at {dt}: {reason}", dt - 1),
        None => println!("{what}, {steps} steps: 1000 ms, the longest there is"),
    }
}

/// Cells in a row, the same water at the same speed over every inner face.
fn channel(cells: usize) -> Site {
    let card = Card { columns: cells as u32, rows: 1, dx: 1_000_000, dy: 1_000_000, dt: 1, steps: 0 };
    let mut state = vec![100_000; cells];
    state.push(0);
    state.resize(2 * cells, 2_000_000);
    state.resize(4 * cells + 1, 0);
    Site::new(card, vec![0; cells], state).expect("a site in range")
}

fn main() -> std::io::Result<()> {
    for name in ["dam-break", "pond-at-rest", "pond-with-shore", "basin-fills"] {
        let sheet = std::fs::read(Path::new("../examples").join(format!("{name}.sheet")))?;
        let site = Site::read_sheet(&sheet).expect("a good sheet");
        tell(name, &site, site.card().steps);
    }
    for steps in [1, 10, 40] {
        tell("channel", &channel(128), steps);
    }
    Ok(())
}
