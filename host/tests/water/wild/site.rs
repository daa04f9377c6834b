//! A site as tests make it, and where its faces and cells stand.

use crate::model;
use water::raw::Card;

#[derive(Clone, Debug, PartialEq)]
pub struct Wild {
    pub card: Card,
    pub ground: Vec<i32>,
    pub state: Vec<i32>,
}

impl Wild {
    pub fn site(&self) -> model::Site<'_> {
        model::Site { card: self.card, ground: &self.ground, state: &self.state }
    }

    /// A site with flat ground 0 and no water.
    pub fn empty(card: Card) -> Wild {
        Wild { card, ground: vec![0; model::cells(&card)], state: vec![0; model::state_length(&card)] }
    }

    /// The place in the state of eastward face i of row j, and of northward face j of column i.
    pub fn east(&self, i: u32, j: u32) -> usize {
        model::cells(&self.card) + (j * (self.card.columns + 1) + i) as usize
    }

    pub fn north(&self, i: u32, j: u32) -> usize {
        model::cells(&self.card) + ((self.card.columns + 1) * self.card.rows + j * self.card.columns + i) as usize
    }

    /// The places in the state of the velocities that may be other than 0, eastward ones first.
    pub fn inner_faces(&self) -> Vec<usize> {
        let Card { columns, rows, .. } = self.card;
        let eastward = (0..rows).flat_map(|j| (1..columns).map(move |i| self.east(i, j)));
        let northward = (1..rows).flat_map(|j| (0..columns).map(move |i| self.north(i, j)));
        eastward.chain(northward).collect()
    }

    /// The cells K and L of each inner face, in the same order.
    pub fn cells_beside(&self) -> Vec<(usize, usize)> {
        let (columns, cells) = (self.card.columns as usize, self.ground.len());
        let eastward = (0..cells).filter(|l| l % columns > 0).map(|l| (l - 1, l));
        let northward = (columns..cells).map(|l| (l - columns, l));
        eastward.chain(northward).collect()
    }

    /// What these cells hold in a state of this site.
    pub fn pairs_in(&self, state: &[i32]) -> Vec<model::Pair> {
        model::pairs(&model::Site { state, ..self.site() })
    }

    /// How many inner faces have a dry bank with water beside it in a state of this site.
    pub fn banks_in(&self, state: &[i32]) -> usize {
        self.pairs_in(state).iter().filter(|cells| cells.bank_beside_water()).count()
    }

    /// The ways out of a cell to the cells beside it.
    pub fn ways_out(&self, cell: usize) -> Vec<WayOut> {
        let Card { columns, rows, dx, dy, .. } = self.card;
        let (i, j) = (cell as u32 % columns, cell as u32 / columns);
        let row = columns as usize;
        let ways = [
            (i > 0, WayOut { face: self.east(i, j), sign: -1, side: dx, beside: cell.wrapping_sub(1) }),
            (i + 1 < columns, WayOut { face: self.east(i + 1, j), sign: 1, side: dx, beside: cell + 1 }),
            (j > 0, WayOut { face: self.north(i, j), sign: -1, side: dy, beside: cell.wrapping_sub(row) }),
            (j + 1 < rows, WayOut { face: self.north(i, j + 1), sign: 1, side: dy, beside: cell + row }),
        ];
        ways.into_iter().filter_map(|(inner, way)| inner.then_some(way)).collect()
    }

    pub fn turned(&self, turn: &model::Turn) -> Wild {
        Wild { card: (turn.card)(self.card), ground: (turn.ground)(&self.site()), state: (turn.state)(&self.site()) }
    }
}

/// A way out of a cell: the place of the face's velocity in the state, the sign with which that points out, the cell's side along it, and the
/// cell that it leads to.
#[derive(Clone, Copy)]
pub struct WayOut {
    pub face: usize,
    pub sign: i32,
    pub side: u32,
    pub beside: usize,
}
