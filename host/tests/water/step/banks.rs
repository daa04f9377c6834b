//! Dry banks: where one of a face's cells is dry after the step and its ground is at or above the other's new surface, the new velocity
//! is 0. Banks at the surface and 1 µm to either side of it, with velocities left on them; cells that the step empties or wets; what
//! neighbours bring to a bank; and random shores, face by face.
//!
//! Two cells stand side by side unless told, sides 1,000,000 and dt 100; a velocity below 10 lets nothing out of 1 m of water.

use super::{pair, stepped};
use crate::library;
use crate::model::Pair;
use crate::trials::{single, trials};
use crate::wild::{self, Wild};
use water::raw::Card;

const CARD: Card = Card { columns: 2, rows: 1, dx: 1_000_000, dy: 1_000_000, dt: 100, steps: 1 };
const METRE: i32 = 1_000_000;

/// The two cells' new heights and the new velocity between them; each turn of the site gives them turned.
fn step_pair(ground: [i32; 2], heights: [i32; 2], u: i32) -> ([i32; 2], i32) {
    let site = pair(CARD, ground, heights, u);
    let (number, next) = stepped(&site);
    assert_eq!(number, 0);
    ([next[0], next[1]], next[site.east(1, 0)])
}

/// In L and in K, on eastward and, by the turn, northward faces, with velocities that let nothing out of the water.
#[test]
fn at_the_surface_and_beside_it() {
    for water in [1, METRE] {
        for (above, is_bank) in [(1, true), (0, true), (-1, false)] {
            for left in [0, 9, -9, -METRE, -10_000_000] {
                // a rise of 1 µm rounds to no slope
                let kept = if is_bank { 0 } else { left };
                let (low, high) = (-METRE, water - METRE + above);
                assert_eq!(step_pair([low, high], [water, 0], left), ([water, 0], kept), "{above} µm above {water} µm in L");
                assert_eq!(step_pair([high, low], [0, water], -left), ([0, water], -kept), "{above} µm above {water} µm in K");
            }
        }
    }
}

/// Small cells and a long step, where a rise of 1 µm gives 98 µm/s: still water leaves over ground that is 1 µm below it.
#[test]
fn one_micrometre_below_the_surface() {
    for (ground, velocity) in [(METRE + 1, 0), (METRE, 0), (METRE - 1, 98), (METRE - 2, 196)] {
        let site = pair(Card { dx: 100_000, dt: 1_000, ..CARD }, [0, ground], [METRE, 0], 0);
        let (number, next) = stepped(&site);
        assert_eq!((number, next[site.east(1, 0)]), (0, velocity));
    }
}

/// A cell that the step empties is a bank if its ground is at or above the water that it left.
#[test]
fn a_cell_that_is_emptied() {
    let emptied = |ground: i32| step_pair([ground, 0], [2 * METRE, METRE], 10_000_000);
    assert_eq!(emptied(3 * METRE + 1), ([0, 3 * METRE], 0));
    assert_eq!(emptied(3 * METRE), ([0, 3 * METRE], 0));
    assert_eq!(emptied(3 * METRE - 1), ([0, 3 * METRE], 3_333_333));
    // 1 µm stays behind: what is carried goes on, down a slope of 2 µm
    assert_eq!(step_pair([3 * METRE, 0], [2 * METRE, METRE], 9_999_999), ([1, 2_999_999], 3_333_336 + 1));
}

/// A dry cell that the step wets is no bank, by 1 µm of water.
#[test]
fn a_cell_that_is_wetted() {
    assert_eq!(step_pair([0, 1_500_000], [METRE, 0], 3_000_000), ([700_000, 300_000], 1_021_269));
    assert_eq!(step_pair([0, METRE], [METRE, 0], 9), ([METRE, 0], 0));
    assert_eq!(step_pair([0, METRE], [METRE, 0], 10), ([METRE - 1, 1], 8));
}

/// Two dry cells: whichever is higher, nothing is left of a velocity.
#[test]
fn both_cells_dry() {
    for ground in [[0, 0], [0, 1], [50_000_000, -50_000_000]] {
        for left in [0, 1, -1, 10_000_000, -10_000_000] {
            assert_eq!(step_pair(ground, [0, 0], left), ([0, 0], 0));
        }
    }
}

/// A row of three, the last of them dry: what the first lets out brings its velocity to the face before the bank.
#[test]
fn a_neighbour_behind_brings_water() {
    let next_velocity = |ground: i32| {
        let mut site = Wild::empty(Card { columns: 3, ..CARD });
        let (first, second) = (site.east(1, 0), site.east(2, 0));
        site.ground[2] = ground;
        site.state[..2].fill(METRE);
        site.state[first] = 5_000_000;
        let (number, next) = stepped(&site);
        assert_eq!((number, &next[..3]), (0, &[500_000, 1_500_000, 0][..]));
        next[second]
    };
    assert_eq!(next_velocity(1_500_000), 0);
    assert_eq!(next_velocity(1_499_999), 1_666_666);
}

/// Two rows: water that crosses from the north brings the velocity of the face there to the face beside the bank.
#[test]
fn a_neighbour_beside_brings_water() {
    let next_velocity = |ground: i32| {
        let mut site = Wild::empty(Card { rows: 2, ..CARD });
        let (beside_bank, above, across) = (site.east(1, 0), site.east(1, 1), site.north(0, 1));
        site.ground[1] = ground;
        site.state[..4].copy_from_slice(&[METRE, 0, METRE, METRE]);
        site.state[above] = 2_000_000;
        site.state[across] = -3_000_000;
        let (number, next) = stepped(&site);
        assert_eq!((number, &next[..4]), (0, &[1_300_000, 0, 500_000, 1_200_000][..]));
        next[beside_bank]
    };
    assert_eq!(next_velocity(1_300_000), 0);
    assert_eq!(next_velocity(1_299_999), 461_538);
}

/// How many faces of each kind were met, all with water beside the bank.
#[derive(Default, Debug)]
struct Met {
    in_k: u64,
    in_l: u64,
    level: u64,
    with_velocity: u64,
    // by the new heights and not by the old ones, and the reverse
    made: u64,
    gone: u64,
}

impl Met {
    fn count(&mut self, before: &Pair, after: &Pair, left: i32) {
        self.gone += u64::from(before.bank_beside_water() && !after.dry_bank());
        if after.bank_beside_water() {
            self.in_k += u64::from(after.k.is_dry());
            self.in_l += u64::from(after.l.is_dry());
            self.level += u64::from(after.k.surface() == after.l.surface());
            self.with_velocity += u64::from(left != 0);
            self.made += u64::from(!before.dry_bank());
        }
    }
}

#[test]
fn random_shores() {
    let mut met = Met::default();
    trials("banks", 10_000, |rng| {
        let site = if rng.percent(50) { wild::sloshing(rng) } else { wild::terraces(rng) };
        let mut next = vec![-7; site.state.len()];
        if library::step(rng, site.card, &site.ground, &site.state, &mut next) != 0 {
            return;
        }
        let (before, after) = (site.pairs_in(&site.state), site.pairs_in(&next));
        for (place, (before, after)) in site.inner_faces().into_iter().zip(before.iter().zip(&after)) {
            assert!(next[place] == 0 || !after.dry_bank(), "a dry bank stands still");
            met.count(before, after, site.state[place]);
        }
    });
    println!("banks: faces with a dry bank beside water: {met:?}");
    let Met { in_k, in_l, level, with_velocity, made, gone } = met;
    assert!(single() || [in_k, in_l, level, with_velocity, made, gone].iter().all(|&times| times > 1_000));
}
