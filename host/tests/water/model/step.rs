//! "One step": transfers first, then heights, then velocities, which use old transfers and new heights. A dry bank is one by its new
//! height and the other cell's new surface. Both engines' steps are made here; textbook.rs has what the second one does in another way, and
//! pumps.rs what pumps do before either.

use super::bank::{Cell, Pair};
use super::grid::Grid;
use super::pumps::{check_pumped, pumped, Pumped};
use super::site::{Site, HEIGHTS, VELOCITIES};
use water::raw::Card;

/// Standard gravity in µm/s².
const GRAVITY: i128 = 9_806_650;

/// What a face's slope is of, in µm, by its two cells after the step: in nothing else do the two engines differ. It is asked where there is
/// water and no dry bank.
pub type Rise = fn(&Pair) -> i128;

/// The first engine's: (hL'+zL) − (hK'+zK).
fn rise(new: &Pair) -> i128 {
    new.l.surface() - new.k.surface()
}

/// T has the sign of u and the size floor(h·|u|·dt / (1000·d)), h being K's old height if u > 0, L's if u < 0.
pub fn transfer(dt: u32, d: u32, height_k: i128, height_l: i128, u: i128) -> i128 {
    let height = if u > 0 { height_k } else { height_l };
    // nothing in the quotient is below 0, so that it is the floor
    u.signum() * (height * u.abs() * i128::from(dt) / (1_000 * i128::from(d)))
}

/// Step limit: dt·((west, if it points west, plus east, if it points east)·dy + (south, if it points south, plus north, if it points
/// north)·dx) ≤ 1000·dx·dy.
fn within_step_limit(site: &Site, i: usize, j: usize) -> bool {
    let Card { dx, dy, dt, .. } = site.card;
    let (dx, dy, dt) = (i128::from(dx), i128::from(dy), i128::from(dt));
    let west_east = (-site.east(i, j)).max(0) + site.east(i + 1, j).max(0);
    let south_north = (-site.north(i, j)).max(0) + site.north(i, j + 1).max(0);
    dt * (west_east * dy + south_north * dx) <= 1_000 * dx * dy
}

/// A site with what crosses each of its faces in one step, and the heights after it.
struct Moving<'a> {
    site: Site<'a>,
    east: Grid,
    north: Grid,
    new_heights: Grid,
}

impl Moving<'_> {
    fn of<'a>(site: &Site<'a>) -> Moving<'a> {
        let Card { dx, dy, dt, .. } = site.card;
        let (columns, rows) = (site.columns(), site.rows());
        // T = 0 on walls
        let east = Grid::of(columns + 1, rows, |i, j| match i {
            0 => 0,
            wall if wall == columns => 0,
            _ => transfer(dt, dx, site.height(i - 1, j), site.height(i, j), site.east(i, j)),
        });
        let north = Grid::of(columns, rows + 1, |i, j| match j {
            0 => 0,
            wall if wall == rows => 0,
            _ => transfer(dt, dy, site.height(i, j - 1), site.height(i, j), site.north(i, j)),
        });
        // the old one, less T out, plus T in, over four faces
        let new_heights = Grid::of(columns, rows, |i, j| {
            site.height(i, j) + east.at(i, j) - east.at(i + 1, j) + north.at(i, j) - north.at(i, j + 1)
        });
        Moving { site: *site, east, north, new_heights }
    }

    /// A cell as it is after the step.
    fn new_cell(&self, i: usize, j: usize) -> Cell {
        Cell { height: self.new_heights.at(i, j), ground: self.site.ground(i, j) }
    }

    /// The inner eastward face i of row j: K is cell (i − 1, j), L is cell (i, j).
    fn east_face(&self, i: usize, j: usize) -> Face {
        let Moving { site, east, north, .. } = self;
        Face {
            dt: site.card.dt,
            d: site.card.dx,
            u: site.east(i, j),
            old_sum: site.height(i - 1, j) + site.height(i, j),
            new: Pair { k: self.new_cell(i - 1, j), l: self.new_cell(i, j) },
            edges: [
                Edge { out: east.at(i, j) + east.at(i + 1, j), beyond: site.east(i + 1, j) },
                Edge { out: -(east.at(i, j) + east.at(i - 1, j)), beyond: site.east(i - 1, j) },
                Edge {
                    out: north.at(i - 1, j + 1) + north.at(i, j + 1),
                    beyond: if j + 1 < site.rows() { site.east(i, j + 1) } else { 0 },
                },
                Edge { out: -(north.at(i - 1, j) + north.at(i, j)), beyond: if j > 0 { site.east(i, j - 1) } else { 0 } },
            ],
        }
    }

    /// The inner northward face j of column i: K is cell (i, j − 1), L is cell (i, j).
    fn north_face(&self, i: usize, j: usize) -> Face {
        let Moving { site, east, north, .. } = self;
        Face {
            dt: site.card.dt,
            d: site.card.dy,
            u: site.north(i, j),
            old_sum: site.height(i, j - 1) + site.height(i, j),
            new: Pair { k: self.new_cell(i, j - 1), l: self.new_cell(i, j) },
            edges: [
                Edge { out: north.at(i, j) + north.at(i, j + 1), beyond: site.north(i, j + 1) },
                Edge { out: -(north.at(i, j) + north.at(i, j - 1)), beyond: site.north(i, j - 1) },
                Edge {
                    out: east.at(i + 1, j - 1) + east.at(i + 1, j),
                    beyond: if i + 1 < site.columns() { site.north(i + 1, j) } else { 0 },
                },
                Edge { out: -(east.at(i, j - 1) + east.at(i, j)), beyond: if i > 0 { site.north(i - 1, j) } else { 0 } },
            ],
        }
    }

    fn inner_faces(&self) -> Vec<Face> {
        let (columns, rows) = (self.site.columns(), self.site.rows());
        let eastward = (0..rows).flat_map(|j| (1..columns).map(move |i| self.east_face(i, j)));
        let northward = (1..rows).flat_map(|j| (0..columns).map(move |i| self.north_face(i, j)));
        eastward.chain(northward).collect()
    }
}

/// One dual edge of a face's cell: the flow over it, positive out of the cell, and the velocity of the parallel face beyond it.
/// Beyond a side wall there is no flow, so that any velocity does.
struct Edge {
    out: i128,
    beyond: i128,
}

impl Edge {
    /// Flow in: what flows out, if that is negative, turned round.
    fn flow_in(&self) -> i128 {
        (-self.out).max(0)
    }
}

/// One inner face between K and L, with all that its new velocity needs.
struct Face {
    dt: u32,
    d: u32,
    u: i128,
    old_sum: i128,
    // the two cells after the step
    new: Pair,
    // ahead and behind along the face's direction, then the two sides
    edges: [Edge; 4],
}

impl Face {
    /// H', the new sum.
    fn new_sum(&self) -> i128 {
        self.new.sum()
    }

    /// H less all flow out.
    fn own_share(&self) -> i128 {
        self.old_sum - self.edges.iter().map(|edge| edge.out.max(0)).sum::<i128>()
    }

    /// A = own share·u + the sum of flow in·its velocity.
    fn carried(&self) -> i128 {
        self.own_share() * self.u + self.edges.iter().map(|edge| edge.flow_in() * edge.beyond).sum::<i128>()
    }

    /// H' is the own share and all flow in, the paper's balance (13).
    fn balances(&self) -> bool {
        self.new_sum() == self.own_share() + self.edges.iter().map(Edge::flow_in).sum::<i128>()
    }

    /// The carried part of the new velocity, before the slope is taken off: trunc(A/H'), where H' is above 0.
    fn carried_part(&self) -> i128 {
        self.carried() / self.new_sum()
    }

    /// The velocities that count: the face's own, and those of the parallel neighbours that brought water in.
    fn who_counts(&self) -> impl Iterator<Item = i128> + '_ {
        std::iter::once(self.u).chain(self.edges.iter().filter(|edge| edge.flow_in() > 0).map(|edge| edge.beyond))
    }

    fn least(&self) -> i128 {
        self.who_counts().min().expect("its own counts")
    }

    fn greatest(&self) -> i128 {
        self.who_counts().max().expect("its own counts")
    }

    /// S = trunc(9,806,650·dt·rise / (1000·d)); Rust's quotient goes towards zero.
    fn slope(&self, rise: Rise) -> i128 {
        GRAVITY * i128::from(self.dt) * rise(&self.new) / (1_000 * i128::from(self.d))
    }

    /// Where the new velocity is 0 by rule: H' is 0, or one of the two cells is a dry bank to the other.
    fn stands_still(&self) -> bool {
        self.new_sum() == 0 || self.new.dry_bank()
    }

    /// 0 by rule, otherwise trunc(A/H') − S.
    fn new_velocity(&self, rise: Rise) -> i128 {
        if self.stands_still() {
            0
        } else {
            self.carried_part() - self.slope(rise)
        }
    }
}

fn fits(range: &std::ops::RangeInclusive<i32>, number: i128) -> bool {
    i128::from(*range.start()) <= number && number <= i128::from(*range.end())
}

/// The own share of each inner face of a site that passes the first three checks, eastward ones first.
pub fn own_shares(site: &Site) -> Vec<i128> {
    Moving::of(site).inner_faces().iter().map(Face::own_share).collect()
}

/// What is carried over one inner face, and between what it stays.
pub struct Carried {
    pub least: i128,
    pub part: i128,
    pub greatest: i128,
    pub slope: i128,
}

/// Of each inner face of a site that passes the first three checks, eastward ones first; none where the new velocity is 0 by rule.
pub fn carried_parts(site: &Site) -> Vec<Option<Carried>> {
    let carried = |face: &Face| {
        let (part, slope) = (face.carried_part(), face.slope(rise));
        Carried { least: face.least(), part, greatest: face.greatest(), slope }
    };
    Moving::of(site).inner_faces().iter().map(|face| (!face.stands_still()).then(|| carried(face))).collect()
}

/// An accepted step: the next state, and what the pumps before it added and took.
pub struct Step {
    pub next: Vec<i32>,
    pub added: i128,
    pub taken: i128,
}

/// One step with pumps of a site that passes the first three checks with them, or the lowest of 4, 5 and 7 that applies.
pub fn advance(site: &Site, pumps: &[i32]) -> Result<Step, u32> {
    advance_by(rise, site, pumps)
}

/// The limit is one of velocities, which no pump changes, and comes first; then each inlet at its turn; then the step from the pumped state.
fn advance_by(rise: Rise, site: &Site, pumps: &[i32]) -> Result<Step, u32> {
    if !keeps_step_limit(site) {
        return Err(4);
    }
    let Pumped { state, added, taken } = pumped(pumps, site.state).ok_or(5u32)?;
    let next = advance_from(rise, &Site { state: &state, ..*site })?;
    Ok(Step { next, added, taken })
}

fn keeps_step_limit(site: &Site) -> bool {
    (0..site.rows()).all(|j| (0..site.columns()).all(|i| within_step_limit(site, i, j)))
}

/// One step without pumps.
pub fn advance_unpumped(site: &Site) -> Result<Vec<i32>, u32> {
    advance_from(rise, site)
}

fn advance_from(rise: Rise, site: &Site) -> Result<Vec<i32>, u32> {
    let (columns, rows) = (site.columns(), site.rows());
    if !keeps_step_limit(site) {
        return Err(4);
    }
    let moving = Moving::of(site);
    for face in moving.inner_faces() {
        assert!(face.own_share() >= 0, "the step limit keeps own shares at or above 0, so that 6 has no input");
        assert!(face.balances(), "H' is the own share and all flow in");
        if face.new_sum() > 0 {
            let part = face.carried_part();
            assert!(face.least() <= part && part <= face.greatest(), "what is carried stays between what came");
        }
    }
    if moving.new_heights.numbers.iter().any(|&height| height > 50_000_000) {
        return Err(5);
    }
    // walls stay 0
    let new = |face: Face| face.new_velocity(rise);
    let east = Grid::of(columns + 1, rows, |i, j| if i == 0 || i == columns { 0 } else { new(moving.east_face(i, j)) });
    let north = Grid::of(columns, rows + 1, |i, j| if j == 0 || j == rows { 0 } else { new(moving.north_face(i, j)) });
    if !east.numbers.iter().chain(&north.numbers).all(|&velocity| fits(&VELOCITIES, velocity)) {
        return Err(7);
    }
    assert!(
        moving.new_heights.numbers.iter().all(|&height| fits(&HEIGHTS, height)),
        "the step limit keeps heights at or above 0"
    );
    Ok([moving.new_heights.words(), east.words(), north.words()].concat())
}

/// The call: refused, the next state is as lent.
pub fn step(card: Card, ground: &[i32], state: &[i32], pumps: &[i32], next: &mut [i32]) -> u32 {
    step_by(rise, card, ground, state, pumps, next)
}

/// Either engine's call.
pub fn step_by(rise: Rise, card: Card, ground: &[i32], state: &[i32], pumps: &[i32], next: &mut [i32]) -> u32 {
    let site = Site { card, ground, state };
    let number = check_pumped(&site, pumps, next.len() == state.len());
    if number != 0 {
        return number;
    }
    match advance_by(rise, &site, pumps) {
        Ok(step) => {
            next.copy_from_slice(&step.next);
            0
        }
        Err(number) => number,
    }
}
