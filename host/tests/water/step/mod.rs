//! The step: random and hostile sites, each refusal at its boundary, which faces count in the step limit, own shares of which nothing is
//! left, what is carried between what came, dry banks, still rows, the sizes at which it works in another way, and the textbook engine's
//! greatest numbers. Both engines make every step here (library.rs).

mod banks;
mod boundary;
mod carried;
mod limit;
mod random;
mod shares;
mod sizes;
mod still;
mod textbook;

use crate::library;
use crate::model::TURNS;
use crate::rng::Rng;
use crate::wild::Wild;
use water::raw::Card;

/// Two cells side by side on a card of two columns and one row, u being the velocity between them.
fn pair(card: Card, ground: [i32; 2], heights: [i32; 2], u: i32) -> Wild {
    let mut site = Wild::empty(card);
    let middle = site.east(1, 0);
    site.ground.copy_from_slice(&ground);
    site.state[..2].copy_from_slice(&heights);
    site.state[middle] = u;
    site
}

/// The number of a step of this site and the list that it was lent for the next state, which each turn of the site gives turned.
fn stepped(site: &Wild) -> (u32, Vec<i32>) {
    let step = |site: &Wild| {
        let mut next = vec![-7; site.state.len()];
        (library::step(&mut Rng::new(3), site.card, &site.ground, &site.state, &mut next), next)
    };
    let (number, next) = step(site);
    for turn in &TURNS {
        let (turned_number, turned_next) = step(&site.turned(turn));
        assert_eq!(turned_number, number, "{}", turn.name);
        if number == 0 {
            let after = Wild { state: next.clone(), ..site.clone() };
            assert_eq!(turned_next, after.turned(turn).state, "{}", turn.name);
        }
    }
    (number, next)
}
