//! How much water there is on each site of examples/, before its run and after it: a report's first and last volume. Run from host/:
//!
//!     cargo run --release --example volumes

use std::path::Path;
use water::Site;

/// Cubic micrometres as whole litres, for the screen; what is compared are the cubic micrometres.
fn litres(volume: u128) -> u128 {
    volume / 10_u128.pow(15)
}

fn main() -> std::io::Result<()> {
    for name in ["dam-break", "pond-at-rest", "pond-with-shore", "basin-fills"] {
        let sheet = std::fs::read(Path::new("../examples").join(format!("{name}.sheet")))?;
        let mut site = Site::read_sheet(&sheet).expect("a good sheet");
        let first = site.volume();
        let tally = site.run();
        let last = site.volume();
        let same = if last == first { "the same" } else { "not the same" };
        println!(
            "{name}: {} litres before, {} after {} steps, {same} to the last cubic micrometre",
            litres(first),
            litres(last),
            tally.steps
        );
    }
    Ok(())
}
