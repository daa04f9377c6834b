//! Sites on the brink of refusals 4, 5 and 7: exactly within, or beyond by as little as the numbers allow; and on the brink of a negative
//! own share, which only a site refused with 4 goes beyond.

use super::{card, whole, Wild, HEIGHT, SPEED};
use crate::model;
use crate::rng::Rng;
use water::raw::Card;

/// A card of these sizes with which both faces of a direction together can use a cell's step limit up.
fn quick(rng: &mut Rng, columns: u32, rows: u32) -> Card {
    loop {
        let card = Card { columns, rows, ..card(rng) };
        if 1_000 * i64::from(card.dx.max(card.dy)) <= i64::from(card.dt) * 2 * SPEED {
            return card;
        }
    }
}

/// How fast a cell may let water out over south and north together, besides so fast over west and east.
fn left_across(card: &Card, along: i64) -> i64 {
    let (dx, dy, dt) = (i64::from(card.dx), i64::from(card.dy), i64::from(card.dt));
    (1_000 * dx * dy - dt * along * dy) / (dt * dx)
}

/// A sum of two speeds taken apart, each in its range.
fn apart(rng: &mut Rng, sum: i64) -> (i64, i64) {
    let first = rng.between((sum - SPEED).max(0), sum.min(SPEED));
    (first, sum - first)
}

/// A middle cell whose faces that point out of it meet the step limit exactly, or pass it by as little as the numbers allow; a face that
/// points into it runs at any speed that the cell behind it stands.
pub fn of_limit(rng: &mut Rng) -> Wild {
    let card = quick(rng, 3, 3);
    let (dx, dy, dt) = (i64::from(card.dx), i64::from(card.dy), i64::from(card.dt));
    let west_east = rng.between(0, 1_000 * dx / dt).min(2 * SPEED);
    let south_north = (left_across(&card, west_east) + rng.between(0, 1)).min(2 * SPEED);
    let mut site = Wild::empty(card);
    site.state[..9].fill(rng.pick(&[0, 1, 1_000_000]));
    let faces = [(site.east(1, 1), site.east(2, 1), west_east, dx), (site.north(1, 1), site.north(1, 2), south_north, dy)];
    for (low, high, sum, side) in faces {
        // out over both, or through: the whole sum over one, if it can, and in over the other
        let inward = rng.between(0, (1_000 * side / dt).min(SPEED));
        let (back, forth) = match rng.below(3) {
            0 if sum <= SPEED => (-inward, sum),
            1 if sum <= SPEED => (sum, -inward),
            _ => apart(rng, sum),
        };
        site.state[low] = -back as i32;
        site.state[high] = forth as i32;
    }
    site
}

/// Two cells in the middle of 4×3, side by side, with a still face between them; each lets water out over its three other faces, up to
/// the step limit or beyond it by as little as the numbers allow. Of what is in them nothing is left, or nearly nothing, and it is all
/// that the own share of the face between them has.
pub fn of_share(rng: &mut Rng) -> Wild {
    let mut card = quick(rng, 4, 3);
    // sides and a time step (`whole`), and heights below, with which thousandths of the water are whole numbers
    let in_thousandths = rng.percent(50);
    if in_thousandths {
        card = whole(rng, card);
    }
    let (dx, dy, dt) = (i64::from(card.dx), i64::from(card.dy), i64::from(card.dt));
    let mut site = Wild::empty(card);
    site.state[..12].fill(rng.pick(&[0, 1, 1_000_000]));
    for (i, outer, way) in [(1, 1, -1), (2, 3, 1)] {
        let (height, along, south, north) = if in_thousandths {
            let along = rng.between(0, 1_000);
            let south = rng.between(0, 1_000 - along);
            let north = 1_000 - along - south;
            (1_000 * rng.scaled(1, HEIGHT / 1_000), along * dx / dt, south * dy / dt, north * dy / dt)
        } else {
            let along = rng.between(0, (1_000 * dx / dt).min(SPEED));
            let (south, north) = apart(rng, left_across(&card, along).min(2 * SPEED));
            (rng.pick(&[0, 1, 999_983, HEIGHT]), along, south, north)
        };
        let beyond = rng.pick(&[0, 0, 0, 1]).min(SPEED - north);
        let faces = [(site.east(outer, 1), way * along), (site.north(i, 1), -south), (site.north(i, 2), north + beyond)];
        for (place, velocity) in faces {
            site.state[place] = velocity as i32;
        }
        site.state[4 + i as usize] = height as i32;
    }
    site
}

/// Two cells, the second of which comes to 50,000,000 exactly, one below or one above; the surface is level afterwards.
pub fn of_height(rng: &mut Rng) -> Wild {
    let card = Card { columns: 2, rows: 1, ..card(rng) };
    let mut site = Wild::empty(card);
    let limit = (1_000 * i64::from(card.dx) / i64::from(card.dt)).min(SPEED);
    let u = rng.scaled(1, limit);
    let height = rng.scaled(1, HEIGHT);
    let transfer = model::transfer(card.dt, card.dx, height.into(), 0, u.into()) as i64;
    let other = (HEIGHT - transfer + rng.between(-1, 1)).min(HEIGHT);
    let apart = (other + transfer) - (height - transfer);
    let middle = site.east(1, 0);
    site.state[..2].copy_from_slice(&[height as i32, other as i32]);
    site.state[middle] = u as i32;
    site.ground.copy_from_slice(&[(apart / 2) as i32, -(apart / 2) as i32]);
    site
}

/// Two still cells whose slope gives 20,000,000 exactly or nearly, to either side.
pub fn of_speed(rng: &mut Rng) -> Wild {
    let card = Card {
        columns: 2,
        rows: 1,
        dx: rng.between(10_000_000, 20_000_000) as u32,
        dt: rng.between(500, 1_000) as u32,
        ..card(rng)
    };
    let (dx, dt) = (i64::from(card.dx), i64::from(card.dt));
    let rise = (1_000 * dx * SPEED / (9_806_650 * dt) + rng.between(-3, 3)) * rng.pick(&[1, -1]);
    let mut site = Wild::empty(card);
    site.state[..2].fill(rng.scaled(1, HEIGHT) as i32);
    site.ground.copy_from_slice(&[-(rise / 2) as i32, (rise - rise / 2) as i32]);
    site
}
