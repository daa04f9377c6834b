//! Dry banks and still water, as document 02's [2] has them.

use super::site::{cells, Site};

/// A cell's water and the ground below it.
#[derive(Clone, Copy)]
pub struct Cell {
    pub height: i128,
    pub ground: i128,
}

impl Cell {
    pub fn is_dry(&self) -> bool {
        self.height == 0
    }

    pub fn surface(&self) -> i128 {
        self.height + self.ground
    }

    /// Dry, and its ground at or above the other's surface.
    pub fn is_bank_to(&self, other: &Cell) -> bool {
        self.is_dry() && self.ground >= other.surface()
    }
}

/// An inner face's two cells, K west or south of L.
#[derive(Clone, Copy)]
pub struct Pair {
    pub k: Cell,
    pub l: Cell,
}

impl Pair {
    /// The sum of the two heights; after a step, H'.
    pub fn sum(&self) -> i128 {
        self.k.height + self.l.height
    }

    /// Where one of the two is a dry bank to the other.
    pub fn dry_bank(&self) -> bool {
        self.k.is_bank_to(&self.l) || self.l.is_bank_to(&self.k)
    }

    /// The same with water beside it: over two dry cells nothing moved before either.
    pub fn bank_beside_water(&self) -> bool {
        self.dry_bank() && !(self.k.is_dry() && self.l.is_dry())
    }

    /// Two wet cells have one surface; a dry one's ground is at or above the surface of a wet one.
    fn lies_still(&self) -> bool {
        match (self.k.is_dry(), self.l.is_dry()) {
            (false, false) => self.k.surface() == self.l.surface(),
            (true, false) => self.k.ground >= self.l.surface(),
            (false, true) => self.l.ground >= self.k.surface(),
            (true, true) => true,
        }
    }
}

/// The two cells of each inner face of a site as it stands, eastward faces first. What decides a new velocity are those of the next state.
pub fn pairs(site: &Site) -> Vec<Pair> {
    let (columns, rows) = (site.columns(), site.rows());
    let eastward = (0..rows).flat_map(|j| (1..columns).map(move |i| Pair { k: site.cell(i - 1, j), l: site.cell(i, j) }));
    let northward = (1..rows).flat_map(|j| (0..columns).map(move |i| Pair { k: site.cell(i, j - 1), l: site.cell(i, j) }));
    eastward.chain(northward).collect()
}

/// All velocities 0, neighbouring wet cells have one surface, and each dry cell's ground is at or above its wet neighbours' surface.
pub fn still_water(site: &Site) -> bool {
    site.state[cells(&site.card)..].iter().all(|&velocity| velocity == 0) && pairs(site).iter().all(Pair::lies_still)
}
