//! The step, by both engines, and the run. `tide` holds the new heights and what crosses each face, in the state's own layout. One flag says
//! whether a division is left out where what it would divide is 0; without it each inner face divides once for what crosses it and, where
//! there is water and no dry bank, twice for its new velocity. The other flag says whether the step is the textbook engine's, which there
//! divides once more. Pumps act on a copy of a step's heights, and in a run on the heights themselves, where a refused step undoes them.

use super::pumps::{self, Moved, Turns};
use super::site::{self, speed_fits};
use water::raw::{Card, Tally};

/// The buffers of a step, made once.
pub struct Plain<const SKIPS: bool> {
    tide: Vec<i32>,
    draft: Vec<i32>,
    pumped: Vec<i32>,
    turns: Turns,
}

/// The parts of a list that is laid out as a state.
#[derive(Clone, Copy)]
struct Parts<'a> {
    heights: &'a [i32],
    east: &'a [i32],
    north: &'a [i32],
}

fn parts<'a>(card: &Card, list: &'a [i32]) -> Parts<'a> {
    let (columns, rows) = (card.columns as usize, card.rows as usize);
    let (heights, velocities) = list.split_at(columns * rows);
    let (east, north) = velocities.split_at((columns + 1) * rows);
    Parts { heights, east, north }
}

/// 1, 2, 3 or 0, the lowest that applies to site and pumps.
fn check(card: &Card, ground: &[i32], state: &[i32], pumps: &[i32], more_lengths: bool) -> u32 {
    let of_site = site::check(card, ground, state, more_lengths);
    if pumps.is_empty() || of_site == 1 {
        return of_site;
    }
    match (of_site, pumps::check(card, pumps)) {
        (0, number) | (number, 0) => number,
        (one, other) => one.min(other),
    }
}

impl<const SKIPS: bool> Plain<SKIPS> {
    pub fn new() -> Plain<SKIPS> {
        Plain { tide: vec![0; 49_408], draft: vec![0; 49_408], pumped: vec![0; 16_384], turns: Turns::new() }
    }

    pub fn step(&mut self, card: Card, ground: &[i32], state: &[i32], pumps: &[i32], next: &mut [i32]) -> u32 {
        self.step_by::<false>(card, ground, state, pumps, next)
    }

    pub fn step_textbook(&mut self, card: Card, ground: &[i32], state: &[i32], pumps: &[i32], next: &mut [i32]) -> u32 {
        self.step_by::<true>(card, ground, state, pumps, next)
    }

    fn step_by<const TEXTBOOK: bool>(
        &mut self,
        card: Card,
        ground: &[i32],
        state: &[i32],
        pumps: &[i32],
        next: &mut [i32],
    ) -> u32 {
        let mut number = check(&card, ground, state, pumps, next.len() == state.len());
        if number != 0 {
            return number;
        }
        let (tide, draft) = (&mut self.tide[..state.len()], &mut self.draft[..state.len()]);
        let mut from = parts(&card, state);
        if !pumps.is_empty() {
            let pumped = &mut self.pumped[..ground.len()];
            pumped.copy_from_slice(from.heights);
            if self.turns.pump(pumped, pumps).is_none() {
                return past_the_top(&card, &from);
            }
            from.heights = pumped;
        }
        number = advance::<SKIPS, TEXTBOOK>(&card, ground, from, tide, draft);
        if number == 0 {
            next.copy_from_slice(draft);
        }
        number
    }

    pub fn run(&mut self, card: Card, ground: &[i32], state: &mut [i32], pumps: &[i32], scratch: &mut [i32]) -> Tally {
        let reason = check(&card, ground, state, pumps, scratch.len() == state.len());
        if reason != 0 {
            return Tally { reason, ..Tally::default() };
        }
        let tide = &mut self.tide[..state.len()];
        let cells = ground.len();
        let greatest = |state: &[i32]| state[..cells].iter().fold(0, |top, &height| top.max(height));
        let mut tally = Tally { top: greatest(state), ..Tally::default() };
        // the two lists change places with every step
        let (mut now, mut then) = (state, scratch);
        while tally.steps < card.steps {
            let moved = self.turns.pump(&mut now[..cells], pumps);
            let from = parts(&card, now);
            tally.reason = match moved {
                Some(_) => advance::<SKIPS, false>(&card, ground, from, tide, then),
                None => past_the_top(&card, &from),
            };
            if tally.reason != 0 {
                self.turns.undo(&mut now[..cells], pumps);
                break;
            }
            let Moved { added, taken } = moved.unwrap_or_default();
            std::mem::swap(&mut now, &mut then);
            tally.added += added;
            tally.taken += taken;
            tally.steps += 1;
            tally.top = tally.top.max(greatest(now));
        }
        let scratch = if tally.steps % 2 == 0 {
            then
        } else {
            then.copy_from_slice(now);
            now
        };
        scratch.fill(0);
        tally
    }
}

/// The number where an inlet takes its cell past the top: a broken step limit comes before it.
fn past_the_top(card: &Card, state: &Parts) -> u32 {
    if limit_kept(card, state) {
        5
    } else {
        4
    }
}

fn limit_kept(card: &Card, state: &Parts) -> bool {
    let (columns, rows) = (card.columns as usize, card.rows as usize);
    let (dx, dy, dt) = (i64::from(card.dx), i64::from(card.dy), i64::from(card.dt));
    // a face counts in the cell that its velocity points out of
    let forward = |velocity: i32| i64::from(velocity.max(0));
    let backward = |velocity: i32| -i64::from(velocity.min(0));
    (0..rows).all(|j| {
        let east = &state.east[j * (columns + 1)..][..columns + 1];
        let south = &state.north[j * columns..][..columns];
        let north = &state.north[(j + 1) * columns..][..columns];
        (0..columns).all(|i| {
            let west_east = backward(east[i]) + forward(east[i + 1]);
            let south_north = backward(south[i]) + forward(north[i]);
            dt * (west_east * dy + south_north * dx) <= 1_000 * dx * dy
        })
    })
}

fn quotient<const SKIPS: bool>(a: i64, b: i64) -> i64 {
    if SKIPS && a == 0 {
        return 0;
    }
    a / b
}

fn transfer<const SKIPS: bool>(height_k: i32, height_l: i32, u: i32, dt: i64, d: i64) -> i32 {
    let height = if u > 0 { height_k } else { height_l };
    if SKIPS && (height == 0 || u == 0) {
        return 0;
    }
    (i64::from(height) * i64::from(u) * dt / (1_000 * d)) as i32
}

fn transfers<const SKIPS: bool>(card: &Card, state: &Parts, east: &mut [i32], north: &mut [i32]) {
    let (columns, rows) = (card.columns as usize, card.rows as usize);
    let (dx, dy, dt) = (i64::from(card.dx), i64::from(card.dy), i64::from(card.dt));
    for j in 0..rows {
        let heights = &state.heights[j * columns..][..columns];
        let velocities = &state.east[j * (columns + 1)..][..columns + 1];
        let row = &mut east[j * (columns + 1)..][..columns + 1];
        row[0] = 0;
        row[columns] = 0;
        for i in 1..columns {
            row[i] = transfer::<SKIPS>(heights[i - 1], heights[i], velocities[i], dt, dx);
        }
    }
    north[..columns].fill(0);
    north[columns * rows..].fill(0);
    for j in 1..rows {
        let south_heights = &state.heights[(j - 1) * columns..][..columns];
        let heights = &state.heights[j * columns..][..columns];
        let velocities = &state.north[j * columns..][..columns];
        let row = &mut north[j * columns..][..columns];
        for i in 0..columns {
            row[i] = transfer::<SKIPS>(south_heights[i], heights[i], velocities[i], dt, dy);
        }
    }
}

fn new_heights(card: &Card, old: &[i32], east: &[i32], north: &[i32], new: &mut [i32]) -> bool {
    let columns = card.columns as usize;
    let mut fit = true;
    for (j, row) in new.chunks_exact_mut(columns).enumerate() {
        let old = &old[j * columns..][..columns];
        let east = &east[j * (columns + 1)..][..columns + 1];
        let south = &north[j * columns..][..columns];
        let north = &north[(j + 1) * columns..][..columns];
        for i in 0..columns {
            row[i] = old[i] + east[i] - east[i + 1] + south[i] - north[i];
            fit &= row[i] <= 50_000_000;
        }
    }
    fit
}

/// The numbers around one inner face; the flows are out of the face's cell.
struct Face {
    u: i32,
    old_sum: i64,
    new_k: i32,
    new_l: i32,
    rise: i64,
    // of the ground alone
    ground_rise: i64,
    flows: [i64; 4],
    beyond: [i32; 4],
}

impl Face {
    fn new_velocity<const SKIPS: bool, const TEXTBOOK: bool>(&self, force: i64, side: i64) -> i64 {
        let new_sum = sum(self.new_k, self.new_l);
        if new_sum == 0 || self.dry_bank() {
            return 0;
        }
        let own_share = self.old_sum - self.flows.iter().map(|&flow| flow.max(0)).sum::<i64>();
        let mut carried = own_share * i64::from(self.u);
        for (&flow, &velocity) in self.flows.iter().zip(&self.beyond) {
            carried += (-flow).max(0) * i64::from(velocity);
        }
        let rise = if TEXTBOOK { quotient::<SKIPS>(self.terms(), new_sum) } else { self.rise };
        quotient::<SKIPS>(carried, new_sum) - quotient::<SKIPS>(force * rise, side)
    }

    /// The pressure term and the ground term, added.
    fn terms(&self) -> i64 {
        let (k, l) = (i64::from(self.new_k), i64::from(self.new_l));
        l * l - k * k + (k + l) * self.ground_rise
    }

    /// A dry cell's surface is its ground: the rise says whether that is at or above the other's surface. Most faces have no dry cell, and
    /// one test is enough for them.
    #[allow(clippy::nonminimal_bool)]
    fn dry_bank(&self) -> bool {
        let (k_dry, l_dry) = (self.new_k == 0, self.new_l == 0);
        (k_dry || l_dry) && ((k_dry && self.rise <= 0) || (l_dry && self.rise >= 0))
    }
}

fn sum(a: i32, b: i32) -> i64 {
    i64::from(a) + i64::from(b)
}

/// Fills a word with a new velocity, and says whether that is in range.
fn fill(word: &mut i32, velocity: i64) -> bool {
    *word = velocity as i32;
    i32::try_from(velocity).map_or(false, speed_fits)
}

fn eastward<const SKIPS: bool, const TEXTBOOK: bool>(
    card: &Card,
    ground: &[i32],
    state: &Parts,
    tide: &Parts,
    next: &mut [i32],
) -> bool {
    let (columns, rows) = (card.columns as usize, card.rows as usize);
    let (force, side) = (9_806_650 * i64::from(card.dt), 1_000 * i64::from(card.dx));
    let mut fit = true;
    for j in 0..rows {
        let old = &state.heights[j * columns..][..columns];
        let new = &tide.heights[j * columns..][..columns];
        let ground = &ground[j * columns..][..columns];
        let own = &tide.east[j * (columns + 1)..][..columns + 1];
        let south = &tide.north[j * columns..][..columns];
        let north = &tide.north[(j + 1) * columns..][..columns];
        let u = &state.east[j * (columns + 1)..][..columns + 1];
        // beyond a side wall there is no flow, so that any velocities do
        let u_north = if j + 1 < rows { &state.east[(j + 1) * (columns + 1)..][..columns + 1] } else { u };
        let u_south = if j > 0 { &state.east[(j - 1) * (columns + 1)..][..columns + 1] } else { u };
        let row = &mut next[j * (columns + 1)..][..columns + 1];
        row[0] = 0;
        row[columns] = 0;
        for i in 1..columns {
            let face = Face {
                u: u[i],
                old_sum: sum(old[i - 1], old[i]),
                new_k: new[i - 1],
                new_l: new[i],
                rise: sum(new[i], ground[i]) - sum(new[i - 1], ground[i - 1]),
                ground_rise: i64::from(ground[i]) - i64::from(ground[i - 1]),
                flows: [
                    sum(own[i], own[i + 1]),
                    -sum(own[i], own[i - 1]),
                    sum(north[i - 1], north[i]),
                    -sum(south[i - 1], south[i]),
                ],
                beyond: [u[i + 1], u[i - 1], u_north[i], u_south[i]],
            };
            fit &= fill(&mut row[i], face.new_velocity::<SKIPS, TEXTBOOK>(force, side));
        }
    }
    fit
}

fn northward<const SKIPS: bool, const TEXTBOOK: bool>(
    card: &Card,
    ground: &[i32],
    state: &Parts,
    tide: &Parts,
    next: &mut [i32],
) -> bool {
    let (columns, rows) = (card.columns as usize, card.rows as usize);
    let (force, side) = (9_806_650 * i64::from(card.dt), 1_000 * i64::from(card.dy));
    let mut fit = true;
    next[..columns].fill(0);
    next[columns * rows..].fill(0);
    for j in 1..rows {
        let (old_k, old_l) = state.heights[(j - 1) * columns..][..2 * columns].split_at(columns);
        let (new_k, new_l) = tide.heights[(j - 1) * columns..][..2 * columns].split_at(columns);
        let (ground_k, ground_l) = ground[(j - 1) * columns..][..2 * columns].split_at(columns);
        let (behind, own) = tide.north[(j - 1) * columns..][..2 * columns].split_at(columns);
        let ahead = &tide.north[(j + 1) * columns..][..columns];
        let (east_k, east_l) = tide.east[(j - 1) * (columns + 1)..][..2 * (columns + 1)].split_at(columns + 1);
        let (u_behind, u) = state.north[(j - 1) * columns..][..2 * columns].split_at(columns);
        let u_ahead = &state.north[(j + 1) * columns..][..columns];
        let row = &mut next[j * columns..][..columns];
        for i in 0..columns {
            let face = Face {
                u: u[i],
                old_sum: sum(old_k[i], old_l[i]),
                new_k: new_k[i],
                new_l: new_l[i],
                rise: sum(new_l[i], ground_l[i]) - sum(new_k[i], ground_k[i]),
                ground_rise: i64::from(ground_l[i]) - i64::from(ground_k[i]),
                flows: [
                    sum(own[i], ahead[i]),
                    -sum(own[i], behind[i]),
                    sum(east_k[i + 1], east_l[i + 1]),
                    -sum(east_k[i], east_l[i]),
                ],
                beyond: [u_ahead[i], u_behind[i], u[(i + 1).min(columns - 1)], u[i.saturating_sub(1)]],
            };
            fit &= fill(&mut row[i], face.new_velocity::<SKIPS, TEXTBOOK>(force, side));
        }
    }
    fit
}

/// One step of a site that passed the first three checks: 0 and the next state, or 4, 5 or 7 and anything in `next`.
fn advance<const SKIPS: bool, const TEXTBOOK: bool>(
    card: &Card,
    ground: &[i32],
    old: Parts,
    tide: &mut [i32],
    next: &mut [i32],
) -> u32 {
    let (columns, rows) = (card.columns as usize, card.rows as usize);
    if !limit_kept(card, &old) {
        return 4;
    }
    let (heights, crossed) = tide.split_at_mut(columns * rows);
    let (east, north) = crossed.split_at_mut((columns + 1) * rows);
    transfers::<SKIPS>(card, &old, east, north);
    if !new_heights(card, old.heights, east, north, heights) {
        return 5;
    }
    let tide = parts(card, tide);
    let (heights, velocities) = next.split_at_mut(columns * rows);
    let (east, north) = velocities.split_at_mut((columns + 1) * rows);
    heights.copy_from_slice(tide.heights);
    let mut fit = eastward::<SKIPS, TEXTBOOK>(card, ground, &old, &tide, east);
    fit &= northward::<SKIPS, TEXTBOOK>(card, ground, &old, &tide, north);
    if fit {
        0
    } else {
        7
    }
}
