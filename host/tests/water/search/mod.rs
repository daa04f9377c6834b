//! The search: random registers and windows, edges on and a hair beside a chamber, odd floats in each place, both forms.

mod random;
mod register;
mod unread;
mod window;

use crate::library::{self, Question};
use crate::rng::Rng;
use crate::wild::Wild;
use water::raw::{Card, Chamber, Found, Window};

/// Both forms on one question; they must agree with the model and with each other.
fn both(rng: &mut Rng, question: Question, chambers: &[Chamber], room: usize) -> (Found, Vec<u32>) {
    let lent: Vec<u32> = (0..room).map(|_| rng.next() as u32).collect();
    let (mut found, mut found_again) = (lent.clone(), lent);
    let answer = library::search(rng, question, chambers, &mut found);
    let (xs, ys): (Vec<i64>, Vec<i64>) = chambers.iter().map(|chamber| (chamber.x, chamber.y)).unzip();
    let again = library::search_lists(rng, question, &xs, &ys, &mut found_again);
    assert_eq!(answer, again, "both forms answer the same");
    assert_eq!(found, found_again, "both forms list the same");
    (answer, found)
}

/// A 3×2 site, every cell of another height.
fn site() -> Wild {
    let mut site = Wild::empty(Card { columns: 3, rows: 2, dx: 1_000_000, dy: 2_000_000, dt: 10, steps: 0 });
    site.state[..6].copy_from_slice(&[10, 20, 30, 40, 50, 60]);
    site
}

const ALL: Window = Window { west: 0.0, south: 0.0, east: 3_000_000.0, north: 4_000_000.0 };

fn ask(site: &Wild, window: Window, depth: i32, chambers: &[Chamber], room: usize) -> (Found, Vec<u32>) {
    let question = Question { card: site.card, ground: &site.ground, state: &site.state, window, depth };
    both(&mut Rng::new(chambers.len() as u64), question, chambers, room)
}

/// The float next above, and next below.
fn above(edge: f64) -> f64 {
    if edge == 0.0 {
        return f64::from_bits(1);
    }
    f64::from_bits(if edge > 0.0 { edge.to_bits() + 1 } else { edge.to_bits() - 1 })
}

fn below(edge: f64) -> f64 {
    -above(-edge)
}

/// Not finite, the largest, both noughts, the smallest of the normal ones and of the subnormal ones.
fn odd_floats() -> [f64; 12] {
    let least = f64::from_bits(1);
    [
        f64::NAN,
        f64::INFINITY,
        f64::NEG_INFINITY,
        f64::MAX,
        f64::MIN,
        -0.0,
        0.0,
        f64::MIN_POSITIVE,
        -f64::MIN_POSITIVE,
        least,
        -least,
        1e300,
    ]
}

/// The four edges by number, for tests that try one thing in each place.
fn edge_of(window: &mut Window, place: usize) -> &mut f64 {
    match place {
        0 => &mut window.west,
        1 => &mut window.south,
        2 => &mut window.east,
        _ => &mut window.north,
    }
}
