//! The sites that are measured, and the staff readings.

use water::raw::{Card, Chamber};
use water::Reading;

pub struct Measured {
    pub card: Card,
    pub ground: Vec<i32>,
    pub state: Vec<i32>,
}

/// What there is on a site.
#[derive(Clone, Copy)]
pub enum Water {
    /// No water at all, on uneven ground.
    Dry,
    /// A level lake over uneven ground, at rest.
    Lake,
    /// A level pond with shores: uneven ground in squares of 2×2 cells, by turns a hollow full of water and a dry bank, so that nearly half
    /// of all faces (3 of 7 in a row of 8 cells) have water on one side and a bank on the other. Nothing moves.
    Pond,
    /// Dry level ground, and in its south-west a puddle that moves, an eighth of the site's side long and wide and no less than two cells:
    /// 16×16 cells on 128×128. No row has it in its middle, where the library looks first for a row that moves.
    Puddle,
    /// Waves that move both ways, all over uneven ground.
    Moving,
}

impl Water {
    pub const ALL: [Water; 5] = [Water::Dry, Water::Lake, Water::Pond, Water::Puddle, Water::Moving];

    pub fn name(self) -> &'static str {
        match self {
            Water::Dry => "dry",
            Water::Lake => "lake at rest",
            Water::Pond => "pond with shores",
            Water::Puddle => "puddle",
            Water::Moving => "moving",
        }
    }

    fn wet(self, size: usize, column: usize, row: usize) -> bool {
        let wide = (size / 8).max(2);
        let inside = |place: usize| (wide / 2..wide / 2 + wide).contains(&place);
        match self {
            Water::Dry => false,
            Water::Lake | Water::Moving => true,
            Water::Pond => (column / 2 + row / 2) % 2 == 0,
            Water::Puddle => inside(column) && inside(row),
        }
    }
}

/// A square site of `size` columns.
pub fn site(size: u32, water: Water) -> Measured {
    let card = Card { columns: size, rows: size, dx: 1_000_000, dy: 1_000_000, dt: 20, steps: 0 };
    let (cells, side) = (card.cells(), size as usize);
    let (level, moving) = match water {
        Water::Dry | Water::Pond => (0, false),
        Water::Lake => (2_000_000, false),
        Water::Puddle => (300_000, true),
        Water::Moving => (2_000_000, true),
    };
    let wet = |k: usize| water.wet(side, k % side, k / side);
    let uneven = |k: usize| ((k * 7_919) % 400_000) as i32 - 200_000;
    let ground = |k: usize| match water {
        Water::Puddle => 0,
        // hollows below the level, banks at it or above
        Water::Pond if wet(k) => uneven(k) - 200_000,
        Water::Pond => uneven(k) + 200_000,
        _ => uneven(k),
    };
    let ground: Vec<i32> = (0..cells).map(ground).collect();
    let mut state = vec![0; card.state_length()];
    for k in (0..cells).filter(|&k| wet(k)) {
        let wave = if moving { ((k % side) * 5_003 + (k / side) * 3_001) % 100_000 } else { 0 };
        state[k] = level - ground[k] + wave as i32;
    }
    if moving {
        let (east, north) = state[cells..].split_at_mut(card.eastward_faces());
        for (k, velocity) in east.iter_mut().enumerate() {
            let (column, row) = (k % (side + 1), k / (side + 1));
            let inner = column > 0 && column < side && water.wet(side, column - 1, row) && water.wet(side, column, row);
            *velocity = if inner { (k * 104_729 % 600_001) as i32 - 300_000 } else { 0 };
        }
        for (k, velocity) in north[side..side * side].iter_mut().enumerate() {
            let inner = water.wet(side, k % side, k / side) && water.wet(side, k % side, k / side + 1);
            *velocity = if inner { (k * 15_485_863 % 600_001) as i32 - 300_000 } else { 0 };
        }
    }
    Measured { card, ground, state }
}

/// 64 pumps all over a site, by turns one that takes 1 mm a step away and an inlet of as much.
pub fn pumps(card: &Card) -> Vec<i32> {
    let cell = |k: usize| (k * 2_654_435_761 % card.cells()) as i32;
    (0..64).flat_map(|k| [cell(k), if k % 2 == 0 { -1_000 } else { 1_000 }]).collect()
}

/// A thousand chambers all over a site.
pub fn register(card: &Card) -> Vec<Chamber> {
    let (width, height) = (u64::from(card.columns * card.dx), u64::from(card.rows * card.dy));
    (0..1_000u64)
        .map(|k| Chamber { x: (k * 2_654_435_761 % (width + 1)) as i64, y: (k * 40_503 * 65_537 % (height + 1)) as i64 })
        .collect()
}

/// A thousand staff readings in no order, by turns metres and feet, up to 53 m: about one in 18 is above 50 m, and refused.
pub fn readings() -> Vec<Reading> {
    let metres = |k: u64| (k * 2_654_435_761 % 53_000_001) as f64 / 1_000_000.0;
    (0..1_000).map(|k| if k % 2 == 0 { Reading::Metres(metres(k)) } else { Reading::Feet(metres(k) / 0.304_8) }).collect()
}
