//! The three turns of a site: east for west, north for south, and swapped axes.

use super::grid::Grid;
use super::site::Site;
use water::raw::Card;

/// What a turn makes of a card, a ground, a state and the column and row of a cell; all but the card are read by the card before the turn.
pub struct Turn {
    pub name: &'static str,
    pub card: fn(Card) -> Card,
    pub ground: fn(&Site) -> Vec<i32>,
    pub state: fn(&Site) -> Vec<i32>,
    pub cell: fn(&Card, i32, i32) -> (i32, i32),
}

pub const TURNS: [Turn; 3] = [
    Turn {
        name: "east for west",
        card: |card| card,
        ground: east_west_ground,
        state: east_west_state,
        cell: |card, i, j| (card.columns as i32 - 1 - i, j),
    },
    Turn {
        name: "north for south",
        card: |card| card,
        ground: north_south_ground,
        state: north_south_state,
        cell: |card, i, j| (i, card.rows as i32 - 1 - j),
    },
    Turn { name: "swapped axes", card: swapped_card, ground: swapped_ground, state: swapped_state, cell: |_, i, j| (j, i) },
];

impl Turn {
    /// A list of pumps, their cells on the site turned, in the same order.
    pub fn pumps(&self, card: &Card, pumps: &[i32]) -> Vec<i32> {
        let (columns, turned_columns) = (card.columns as i32, (self.card)(*card).columns as i32);
        let turned = |pump: &[i32]| {
            let (i, j) = (self.cell)(card, pump[0] % columns, pump[0] / columns);
            [j * turned_columns + i, pump[1]]
        };
        pumps.chunks_exact(2).flat_map(turned).collect()
    }
}

fn list(columns: usize, rows: usize, at: impl Fn(usize, usize) -> i128) -> Vec<i32> {
    Grid::of(columns, rows, at).words()
}

/// Reverse each row of ground, heights and both velocities, and negate the eastward ones.
fn east_west_ground(site: &Site) -> Vec<i32> {
    let (columns, rows) = (site.columns(), site.rows());
    list(columns, rows, |i, j| site.ground(columns - 1 - i, j))
}

fn east_west_state(site: &Site) -> Vec<i32> {
    let (columns, rows) = (site.columns(), site.rows());
    [
        list(columns, rows, |i, j| site.height(columns - 1 - i, j)),
        list(columns + 1, rows, |i, j| -site.east(columns - i, j)),
        list(columns, rows + 1, |i, j| site.north(columns - 1 - i, j)),
    ]
    .concat()
}

/// The same with rows and northward velocities.
fn north_south_ground(site: &Site) -> Vec<i32> {
    let (columns, rows) = (site.columns(), site.rows());
    list(columns, rows, |i, j| site.ground(i, rows - 1 - j))
}

fn north_south_state(site: &Site) -> Vec<i32> {
    let (columns, rows) = (site.columns(), site.rows());
    [
        list(columns, rows, |i, j| site.height(i, rows - 1 - j)),
        list(columns + 1, rows, |i, j| site.east(i, rows - 1 - j)),
        list(columns, rows + 1, |i, j| -site.north(i, rows - j)),
    ]
    .concat()
}

/// Exchange columns and rows, dx and dy, eastward and northward, and transpose every list.
fn swapped_card(card: Card) -> Card {
    Card { columns: card.rows, rows: card.columns, dx: card.dy, dy: card.dx, ..card }
}

fn swapped_ground(site: &Site) -> Vec<i32> {
    list(site.rows(), site.columns(), |i, j| site.ground(j, i))
}

fn swapped_state(site: &Site) -> Vec<i32> {
    let (columns, rows) = (site.columns(), site.rows());
    [
        list(rows, columns, |i, j| site.height(j, i)),
        list(rows + 1, columns, |i, j| site.north(j, i)),
        list(rows, columns + 1, |i, j| site.east(j, i)),
    ]
    .concat()
}
