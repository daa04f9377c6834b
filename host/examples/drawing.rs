//! Draws docs/going-under.svg: the basin of examples/basin-fills.sheet at three moments, with six chambers that turn red once 30 cm of
//! water stand over them, found by the library's own search. Run from host/:
//!
//!     cargo run --release --example drawing > ../docs/going-under.svg

// the other picture has pumps and lines
#[allow(dead_code)]
mod picture;

use picture::Picture;
use std::ops::ControlFlow;
use water::{Chamber, Site};

fn chambers() -> Vec<Chamber> {
    [(2, 1), (4, 4), (8, 2), (11, 4), (14, 1), (17, 3)]
        .map(|(column, row)| Chamber { x: column * 1_000_000 + 500_000, y: row * 1_000_000 + 500_000 })
        .to_vec()
}

fn main() {
    let sheet = std::fs::read("../examples/basin-fills.sheet").expect("examples/basin-fills.sheet");
    let mut site = Site::read_sheet(&sheet).expect("a good sheet");
    let mut picture = Picture::new((11, 22), 1_200_000, chambers(), 300_000);
    picture.add(&site, "at the start", &[]);
    site.run_in_slices(50, |site, tally| {
        if tally.steps == 100 || tally.steps == 500 {
            picture.add(site, &format!("after {} seconds", tally.steps * site.card().dt / 1000), &[]);
        }
        ControlFlow::Continue(())
    });
    picture.print(&site);
}
