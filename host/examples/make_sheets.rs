//! Makes the sheets in examples/; examples/README.md says what to see in each. Run from host/:
//!
//!     cargo run --release --example make_sheets -- ../examples

use std::path::Path;
use water::{Card, Site};

/// Cells of 1 m.
fn card(columns: u32, rows: u32, dt: u32, steps: u32) -> Card {
    Card { columns, rows, dx: 1_000_000, dy: 1_000_000, dt, steps }
}

/// A still site, its ground and heights given at each column and row.
fn still(card: Card, ground: impl Fn(i32, i32) -> i32, height: impl Fn(i32, i32) -> i32) -> Site {
    let places = || (0..card.rows as i32).flat_map(|j| (0..card.columns as i32).map(move |i| (i, j)));
    let ground = places().map(|(i, j)| ground(i, j)).collect();
    let heights: Vec<i32> = places().map(|(i, j)| height(i, j)).collect();
    Site::still(card, ground, &heights).expect("a site in range")
}

/// The dam around a tank in the south-west corner of a flat yard breaks: 2 m of water stand in it, 50 cm in the yard.
fn dam_break() -> Site {
    still(card(16, 8, 50, 40), |_, _| 0, |i, j| if i < 6 && j < 5 { 2_000_000 } else { 500_000 })
}

/// A pond over a bowl, its surface at 1.2 m everywhere: nothing moves.
fn pond_at_rest() -> Site {
    let bowl = |i: i32, j: i32| (10_000 * ((2 * i - 11).pow(2) + (2 * j - 5).pow(2))).min(1_150_000);
    still(card(12, 6, 100, 100), bowl, move |i, j| 1_200_000 - bowl(i, j))
}

/// A pond in a bowl with a dry shore and an island, its surface at 83 cm; in the slope to the east two puddles stand higher, each at a level
/// of its own, the first one just as high as the ground west of it: nothing moves.
fn pond_with_shore() -> Site {
    let ground = |i: i32, j: i32| match (i, j) {
        (5 | 6, 5) => 900_000,
        (13, 3) => 1_200_000,
        (14, 6) => 1_750_000,
        _ => 10_000 * ((2 * i - 13).pow(2) + 2 * (2 * j - 9).pow(2)),
    };
    let level = |i: i32, j: i32| match (i, j) {
        (13, 3) => 1_390_000,
        (14, 6) => 1_850_000,
        _ => 830_000,
    };
    still(card(16, 10, 100, 200), ground, move |i, j| (level(i, j) - ground(i, j)).max(0))
}

/// An upper yard drains down a ramp into a basin 1.5 m below, deepest along its middle; a film of 2 cm covers ramp and basin at the start.
fn basin_fills() -> Site {
    let ground = |i: i32, j: i32| match i {
        0..=5 => 1_500_000,
        6..=11 => 1_500_000 - 250_000 * (i - 5),
        _ => 80_000 * (2 * j - 5).abs() - 80_000,
    };
    still(card(20, 6, 40, 500), ground, |i, _| if i < 6 { 1_000_000 } else { 20_000 })
}

fn main() -> std::io::Result<()> {
    let folder = std::env::args().nth(1).unwrap_or_else(|| "../examples".into());
    let sheets = [
        ("dam-break", dam_break()),
        ("pond-at-rest", pond_at_rest()),
        ("pond-with-shore", pond_with_shore()),
        ("basin-fills", basin_fills()),
    ];
    for (name, site) in sheets {
        std::fs::write(Path::new(&folder).join(format!("{name}.sheet")), site.write_sheet())?;
    }
    Ok(())
}
