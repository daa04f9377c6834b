//! "Finding chambers". A window's edge is taken as the exact fraction that it is, so that nothing here can round.

use super::site::{check_with, Site, HEIGHTS};
use std::cmp::Ordering;
use water::raw::{Card, Chamber, Found, Window};

/// A finite float compared with a whole number from 0 up to 2^53, exactly.
fn compare(edge: f64, whole: i64) -> Ordering {
    let bits = edge.to_bits();
    let exponent = (bits >> 52 & 0x7ff) as i32;
    let fraction = (bits & ((1 << 52) - 1)) as i128;
    // edge = ± mantissa · 2^power
    let (mantissa, power) = if exponent == 0 { (fraction, -1074) } else { (fraction + (1 << 52), exponent - 1075) };
    let mantissa = if bits >> 63 == 1 { -mantissa } else { mantissa };
    let whole = i128::from(whole);
    if mantissa == 0 {
        0.cmp(&whole)
    } else if power > 53 {
        // beyond every whole number here
        mantissa.cmp(&0)
    } else if power >= 0 {
        (mantissa << power).cmp(&whole)
    } else if power >= -60 {
        mantissa.cmp(&(whole << -power))
    } else {
        // strictly between -1 and 1, and not 0
        let sign = mantissa.cmp(&0);
        if whole == 0 {
            sign
        } else {
            Ordering::Less
        }
    }
}

/// west ≤ x ≤ east and south ≤ y ≤ north.
fn inside(window: &Window, chamber: &Chamber) -> bool {
    compare(window.west, chamber.x) != Ordering::Greater
        && compare(window.east, chamber.x) != Ordering::Less
        && compare(window.south, chamber.y) != Ordering::Greater
        && compare(window.north, chamber.y) != Ordering::Less
}

/// Column min(floor(x/dx), columns−1), row likewise.
fn kept_height(site: &Site, chamber: &Chamber) -> i128 {
    let cell = |position: i64, side: u32, count: u32| (position / i64::from(side)).min(i64::from(count) - 1) as usize;
    site.height(cell(chamber.x, site.card.dx, site.card.columns), cell(chamber.y, site.card.dy, site.card.rows))
}

fn chamber_fits(card: &Card, chamber: &Chamber) -> bool {
    (0..=i64::from(card.columns) * i64::from(card.dx)).contains(&chamber.x)
        && (0..=i64::from(card.rows) * i64::from(card.dy)).contains(&chamber.y)
}

fn window_fits(window: &Window) -> bool {
    [window.west, window.south, window.east, window.north].iter().all(|edge| edge.is_finite())
}

/// The call over records.
pub fn search(
    card: Card,
    ground: &[i32],
    state: &[i32],
    chambers: &[Chamber],
    window: Window,
    depth: i32,
    found: &mut [u32],
) -> Found {
    let site = Site { card, ground, state };
    let number = check_with(&site, chambers.len() <= 1_000, || {
        chambers.iter().all(|chamber| chamber_fits(&card, chamber)) && HEIGHTS.contains(&depth) && window_fits(&window)
    });
    if number != 0 {
        return Found { number, count: 0 };
    }
    let listed = |chamber: &Chamber| inside(&window, chamber) && kept_height(&site, chamber) >= i128::from(depth);
    let places: Vec<u32> = (0..chambers.len()).filter(|&place| listed(&chambers[place])).map(|place| place as u32).collect();
    let count = places.len() as u32;
    if found.len() < places.len() {
        return Found { number: 8, count };
    }
    found[..places.len()].copy_from_slice(&places);
    Found { number: 0, count }
}

/// The call over two lists: the same answer; lists of unequal length are refusal 2.
#[allow(clippy::too_many_arguments)]
pub fn search_lists(
    card: Card,
    ground: &[i32],
    state: &[i32],
    xs: &[i64],
    ys: &[i64],
    window: Window,
    depth: i32,
    found: &mut [u32],
) -> Found {
    if xs.len() != ys.len() {
        // card and lengths decide: 1 if the card is wrong, 2 otherwise
        let number = check_with(&Site { card, ground, state }, false, || true);
        return Found { number, count: 0 };
    }
    let chambers: Vec<Chamber> = xs.iter().zip(ys).map(|(&x, &y)| Chamber { x, y }).collect();
    search(card, ground, state, &chambers, window, depth, found)
}
