//! Which faces count in the step limit: those whose velocity points out of the cell, and no others; on all four sides of a cell, at
//! both sides of the boundary, in corners, and in channels where water passes through.
//!
//! Cells of 100 mm by 200 mm and steps of a second: a cell stands 100,000 over its west and east faces together, or 200,000 over its
//! south and north ones, or any mixture of them. The sites are dry, so that nothing but the limit can refuse.

use super::stepped;
use crate::given::Given;
use crate::library;
use crate::trials::trials;
use crate::wild::{self, Wild};
use water::raw::Card;

const DX: i32 = 100_000;
const DY: i32 = 200_000;

fn dry(columns: u32, rows: u32) -> Wild {
    Wild::empty(Card { columns, rows, dx: DX as u32, dy: DY as u32, dt: 1_000, steps: 0 })
}

/// Sets the faces of a cell, each to how fast it lets water out of it (below 0: in).
fn let_out(site: &mut Wild, (i, j): (u32, u32), [west, east, south, north]: [i32; 4]) {
    let places = [site.east(i, j), site.east(i + 1, j), site.north(i, j), site.north(i, j + 1)];
    for (place, velocity) in places.into_iter().zip([-west, east, -south, north]) {
        site.state[place] = velocity;
    }
}

/// The number where one cell's faces let out so much, and all other faces stand still.
fn number_of_cell(columns: u32, rows: u32, cell: (u32, u32), out: [i32; 4]) -> u32 {
    let mut site = dry(columns, rows);
    let_out(&mut site, cell, out);
    stepped(&site).0
}

/// One face out, on each side of a cell; the others stand still, or let in up to what any cell behind them stands.
#[test]
fn one_face_out() {
    for side in 0..4 {
        let stands = if side < 2 { DX } else { DY };
        for inward in [0, 1, DX] {
            let out = |speed: i32| {
                let mut out = [-inward; 4];
                out[side] = speed;
                number_of_cell(3, 3, (1, 1), out)
            };
            assert_eq!(out(stands), 0, "side {side}, {inward} in on the others");
            assert_eq!(out(stands + 1), 4, "side {side}, {inward} in on the others");
            assert_eq!(out(-stands), 0, "side {side}: in");
            // out of the neighbour
            assert_eq!(out(-stands - 1), 4, "side {side}: in");
        }
    }
}

/// Two faces out add up; one in and one out do not.
#[test]
fn two_faces() {
    for (a, b) in [(0, 1), (0, 2), (0, 3), (1, 2), (1, 3), (2, 3)] {
        let stands = |side: usize| if side < 2 { DX } else { DY };
        let both = |first: i32, second: i32| {
            let mut out = [0; 4];
            (out[a], out[b]) = (first, second);
            number_of_cell(3, 3, (1, 1), out)
        };
        // half of what the cell stands over each, and one more over either
        let (first, second) = (stands(a) / 2, stands(b) / 2);
        assert_eq!(both(first, second), 0, "sides {a} and {b}");
        assert_eq!(both(first + 1, second), 4, "sides {a} and {b}");
        assert_eq!(both(first, second + 1), 4, "sides {a} and {b}");
        // water that passes through, either way, uses the limit of each cell but once
        assert_eq!(both(stands(a), -stands(b)), 0, "out at {a} and in at {b}");
        assert_eq!(both(-stands(a), stands(b)), 0, "in at {a} and out at {b}");
        assert_eq!(both(stands(a) + 1, -stands(b)), 4, "out at {a} and in at {b}");
        assert_eq!(both(-stands(a), stands(b) + 1), 4, "in at {a} and out at {b}");
    }
}

/// A cell in the middle with each face still, in or out: what counts against the limit is the sum of what points out.
#[test]
fn every_way_of_four_faces() {
    for pattern in 0..81 {
        let way = |side: u32| pattern / 3i32.pow(side) % 3 - 1;
        for speed in [DX / 4, DX / 3, DX / 3 + 1, DX / 2, DX / 2 + 1, DX] {
            let out = [0, 1, 2, 3].map(|side| way(side) * speed);
            let weighed = [2, 2, 1, 1].iter().zip(out).map(|(weight, speed)| weight * speed.max(0)).sum::<i32>();
            let expected = if weighed <= DY { 0 } else { 4 };
            assert_eq!(number_of_cell(3, 3, (1, 1), out), expected, "{out:?}");
        }
    }
}

/// The two inner faces of a cell in a corner.
#[test]
fn corners() {
    for cell in [(0, 0), (3, 0), (0, 2), (3, 2)] {
        let sides = [usize::from(cell.0 == 0), 2 + usize::from(cell.1 == 0)];
        let out = |along: i32, across: i32| {
            let mut out = [0; 4];
            (out[sides[0]], out[sides[1]]) = (along, across);
            number_of_cell(4, 3, cell, out)
        };
        assert_eq!(out(DX, 0), 0);
        assert_eq!(out(DX + 1, 0), 4);
        assert_eq!(out(0, DY), 0);
        assert_eq!(out(0, DY + 1), 4);
        assert_eq!(out(DX / 2, DY / 2), 0);
        assert_eq!(out(DX / 2, DY / 2 + 1), 4);
        // round the corner
        assert_eq!(out(DX, -DY), 0);
        assert_eq!(out(-DX, DY), 0);
        assert_eq!(out(-DX, DY + 1), 4);
        assert_eq!(out(-DX - 1, DY), 4);
    }
}

/// Straight channels of several lengths, and a ring round a middle cell: each cell takes in on one side and lets out on another.
#[test]
fn channels() {
    for length in [2, 3, 4, 16, 128] {
        for (speed, expected) in [(DX / 2 + 1, 0), (DX, 0), (DX + 1, 4), (-DX, 0), (-DX - 1, 4)] {
            let mut site = dry(length, 1);
            for i in 1..length {
                let place = site.east(i, 0);
                site.state[place] = speed;
            }
            assert_eq!(stepped(&site).0, expected, "{length} cells at {speed}");
        }
    }
    let ring = |speed: i32, way: i32| {
        let mut site = dry(3, 3);
        for (place, way) in [
            (site.east(1, 0), way),
            (site.east(2, 0), way),
            (site.north(2, 1), way),
            (site.north(2, 2), way),
            (site.east(2, 2), -way),
            (site.east(1, 2), -way),
            (site.north(0, 2), -way),
            (site.north(0, 1), -way),
        ] {
            site.state[place] = way * speed;
        }
        stepped(&site).0
    };
    for way in [1, -1] {
        assert_eq!(ring(DX / 2 + 1, way), 0);
        assert_eq!(ring(DX, way), 0);
        assert_eq!(ring(DX + 1, way), 4);
    }
}

/// Where every face of a cell counts, as in document 01.
fn kept_the_old_limit(site: &Wild) -> bool {
    let Card { columns, rows, dx, dy, dt, .. } = site.card;
    let speed = |place: usize| i128::from(site.state[place].unsigned_abs());
    let (dx, dy) = (i128::from(dx), i128::from(dy));
    (0..rows).all(|j| {
        (0..columns).all(|i| {
            let west_east = speed(site.east(i, j)) + speed(site.east(i + 1, j));
            let south_north = speed(site.north(i, j)) + speed(site.north(i, j + 1));
            i128::from(dt) * (west_east * dy + south_north * dx) <= 1_000 * dx * dy
        })
    })
}

/// Nothing is lost: what kept the old limit is not refused for the new one. And much that broke it passes.
#[test]
fn what_kept_the_old_limit_keeps_the_new_one() {
    let (mut before, mut now) = (Given::default(), Given::default());
    trials("the old limit", 6_000, |rng| {
        let site = wild::good(rng);
        let given = library::step(rng, site.card, &site.ground, &site.state, &mut vec![-7; site.state.len()]);
        if kept_the_old_limit(&site) {
            assert_ne!(given, 4, "{:?}", site.card);
            before.count(given);
        } else {
            now.count(given);
        }
    });
    before.assert_often("kept the old limit", &[0, 5, 7], 100);
    now.assert_often("broke the old limit", &[0, 4, 5, 7], 100);
}
