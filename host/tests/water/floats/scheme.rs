//! Document 002's scheme (7b) to (7d) on doubles, in the units of document 01, with document 02's dry banks.

use water::raw::Card;

/// Standard gravity in µm/s².
pub const GRAVITY: f64 = 9_806_650.0;

/// A state in doubles. Faces are numbered as in document 01; columns first, then rows.
#[derive(Clone)]
pub struct Water {
    columns: usize,
    rows: usize,
    pub heights: Vec<f64>,
    pub east: Vec<f64>,
    pub north: Vec<f64>,
}

impl Water {
    pub fn of(card: &Card, state: &[i32]) -> Water {
        let doubles: Vec<f64> = state.iter().map(|&word| f64::from(word)).collect();
        let (columns, rows) = (card.columns as usize, card.rows as usize);
        let (heights, velocities) = doubles.split_at(columns * rows);
        let (east, north) = velocities.split_at((columns + 1) * rows);
        Water { columns, rows, heights: heights.to_vec(), east: east.to_vec(), north: north.to_vec() }
    }

    /// All numbers, in the order of a state.
    pub fn all(&self) -> Vec<f64> {
        [&self.heights[..], &self.east, &self.north].concat()
    }

    fn height(&self, i: usize, j: usize) -> f64 {
        self.heights[j * self.columns + i]
    }

    fn east(&self, i: usize, j: usize) -> f64 {
        self.east[j * (self.columns + 1) + i]
    }

    fn north(&self, i: usize, j: usize) -> f64 {
        self.north[j * self.columns + i]
    }
}

/// Mass flux over each face during dt, divided by the cell's area: (10) with its upwind choice.
fn fluxes(card: &Card, water: &Water) -> (Vec<f64>, Vec<f64>) {
    let seconds = f64::from(card.dt) / 1_000.0;
    let upwind = |u: f64, k: f64, l: f64| if u > 0.0 { k } else { l };
    let (columns, rows) = (water.columns, water.rows);
    let mut east = vec![0.0; water.east.len()];
    let mut north = vec![0.0; water.north.len()];
    for j in 0..rows {
        for i in 1..columns {
            let u = water.east(i, j);
            east[j * (columns + 1) + i] =
                upwind(u, water.height(i - 1, j), water.height(i, j)) * u * seconds / f64::from(card.dx);
        }
    }
    for j in 1..rows {
        for i in 0..columns {
            let u = water.north(i, j);
            north[j * columns + i] = upwind(u, water.height(i, j - 1), water.height(i, j)) * u * seconds / f64::from(card.dy);
        }
    }
    (east, north)
}

/// The largest share of any cell's water that leaves it in one step, over the faces whose velocity points out of it; of a dry cell, the
/// share that would. The step limit asks that it be at most 1; (18) itself counts every face of a cell.
pub fn leaving(card: &Card, water: &Water) -> f64 {
    let seconds = f64::from(card.dt) / 1_000.0;
    let share = |i: usize, j: usize| {
        let west_east = f64::max(-water.east(i, j), 0.0) + f64::max(water.east(i + 1, j), 0.0);
        let south_north = f64::max(-water.north(i, j), 0.0) + f64::max(water.north(i, j + 1), 0.0);
        seconds * (west_east / f64::from(card.dx) + south_north / f64::from(card.dy))
    };
    (0..water.rows).flat_map(|j| (0..water.columns).map(move |i| (i, j))).fold(0.0, |most, (i, j)| f64::max(most, share(i, j)))
}

/// A cell's water and the ground below it.
pub struct Cell {
    pub height: f64,
    pub ground: f64,
}

/// (7d)'s pressure and ground between K and L, over the height of the face's cell; time step and side come in afterwards.
pub type Pull = fn(&Cell, &Cell) -> f64;

/// Both together, as document 01 has them: the height cancels, and what is left is the surface's rise. So a level surface does not pull at
/// all, to the last bit.
fn pull_of_surfaces(k: &Cell, l: &Cell) -> f64 {
    GRAVITY * ((l.height + l.ground) - (k.height + k.ground))
}

/// (7d) for one face: the momentum that is there and that comes in, less what goes out, over the new mass, less the surface's slope.
/// A flow over a dual edge is positive out of the face's cell; what goes out carries u, what comes in the neighbour's velocity.
fn new_velocity(u: f64, old_sum: f64, new_sum: f64, flows: [(f64, f64); 4], slope: f64) -> f64 {
    if new_sum == 0.0 {
        return 0.0;
    }
    let momentum = flows.iter().fold(old_sum * u, |sum, &(out, beyond)| sum - out * if out > 0.0 { u } else { beyond });
    momentum / new_sum - slope
}

/// The dry bank of the face between cells k and l, if one of them is one, and the cell beside it; document 02's [2]. A cell that a step
/// empties may be left with a hair less than nothing.
pub fn dry_bank(ground: &[i32], heights: &[f64], k: usize, l: usize) -> Option<(usize, usize)> {
    let surface = |cell: usize| heights[cell] + f64::from(ground[cell]);
    [(k, l), (l, k)].into_iter().find(|&(bank, beside)| heights[bank] <= 0.0 && surface(beside) <= f64::from(ground[bank]))
}

/// One step.
pub fn step(card: &Card, ground: &[i32], water: &Water) -> Water {
    step_by(pull_of_surfaces, card, ground, water)
}

pub fn step_by(pull: Pull, card: &Card, ground: &[i32], water: &Water) -> Water {
    let (columns, rows) = (water.columns, water.rows);
    let seconds = f64::from(card.dt) / 1_000.0;
    let (east, north) = fluxes(card, water);
    let east_at = |i: usize, j: usize| east[j * (columns + 1) + i];
    let north_at = |i: usize, j: usize| north[j * columns + i];
    let mut next = water.clone();
    // (7b)
    for j in 0..rows {
        for i in 0..columns {
            next.heights[j * columns + i] += east_at(i, j) - east_at(i + 1, j) + north_at(i, j) - north_at(i, j + 1);
        }
    }
    let cell = |k: usize| Cell { height: next.heights[k], ground: f64::from(ground[k]) };
    let slope = |k: usize, l: usize, side: u32| seconds * pull(&cell(k), &cell(l)) / f64::from(side);
    let new_sum = |a: usize, b: usize| next.heights[a] + next.heights[b];
    let unless_bank = |k: usize, l: usize, velocity: f64| match dry_bank(ground, &next.heights, k, l) {
        None => velocity,
        Some(_) => 0.0,
    };
    let (mut new_east, mut new_north) = (water.east.clone(), water.north.clone());
    for j in 0..rows {
        for i in 1..columns {
            let (k, l) = (j * columns + i - 1, j * columns + i);
            let beside = |row: usize| if row < rows { water.east(i, row) } else { 0.0 };
            let flows = [
                (east_at(i, j) + east_at(i + 1, j), water.east(i + 1, j)),
                (-(east_at(i, j) + east_at(i - 1, j)), water.east(i - 1, j)),
                (north_at(i - 1, j + 1) + north_at(i, j + 1), beside(j + 1)),
                (-(north_at(i - 1, j) + north_at(i, j)), beside(j.wrapping_sub(1))),
            ];
            let old_sum = water.height(i - 1, j) + water.height(i, j);
            let velocity = new_velocity(water.east(i, j), old_sum, new_sum(k, l), flows, slope(k, l, card.dx));
            new_east[j * (columns + 1) + i] = unless_bank(k, l, velocity);
        }
    }
    for j in 1..rows {
        for i in 0..columns {
            let (k, l) = ((j - 1) * columns + i, j * columns + i);
            let beside = |column: usize| if column < columns { water.north(column, j) } else { 0.0 };
            let flows = [
                (north_at(i, j) + north_at(i, j + 1), water.north(i, j + 1)),
                (-(north_at(i, j) + north_at(i, j - 1)), water.north(i, j - 1)),
                (east_at(i + 1, j - 1) + east_at(i + 1, j), beside(i + 1)),
                (-(east_at(i, j - 1) + east_at(i, j)), beside(i.wrapping_sub(1))),
            ];
            let old_sum = water.height(i, j - 1) + water.height(i, j);
            let velocity = new_velocity(water.north(i, j), old_sum, new_sum(k, l), flows, slope(k, l, card.dy));
            new_north[j * columns + i] = unless_bank(k, l, velocity);
        }
    }
    Water { east: new_east, north: new_north, ..next }
}
