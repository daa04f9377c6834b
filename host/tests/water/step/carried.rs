//! What is carried stays between what came: with the slope put back, a new velocity lies between the least and the greatest of the
//! face's own velocity and of its parallel neighbours' that brought water in, wherever there is water afterwards and no dry bank, where
//! the new velocity is 0 and has no carried part. A wall is a neighbour with velocity 0. The model asserts it of every face of every step
//! under the limit, those too that are refused with 5 or 7; here it is said of the library's own velocities, with the faces where an end
//! is met.

use super::stepped;
use crate::library;
use crate::model::{self, Carried};
use crate::trials::{single, trials};
use crate::wild::{self, Wild};
use water::raw::Card;

/// The place of each inner face in the state, with what is carried over it, if anything can be.
fn faces(site: &Wild) -> Vec<(usize, Option<Carried>)> {
    site.inner_faces().into_iter().zip(model::carried_parts(&site.site())).collect()
}

#[test]
fn random_steps() {
    // faces that meet one end of two, those strictly between, and those where all that counts is alike, so that both ends are met
    let (mut met_least, mut met_greatest, mut between, mut alike) = (0, 0, 0, 0);
    let mut banks = 0;
    trials("carried", 12_000, |rng| {
        let site = wild::good(rng);
        let mut next = vec![0; site.state.len()];
        if library::step(rng, site.card, &site.ground, &site.state, &mut next) != 0 {
            return;
        }
        for ((place, carried), cells) in faces(&site).into_iter().zip(site.pairs_in(&next)) {
            let Carried { least, part, greatest, slope } = match carried {
                Some(carried) => carried,
                None => {
                    assert_eq!(next[place], 0, "where nothing can be carried, nothing moves");
                    banks += u64::from(cells.bank_beside_water());
                    continue;
                }
            };
            assert!(!cells.dry_bank(), "on a dry bank nothing is carried");
            let put_back = i128::from(next[place]) + slope;
            assert_eq!(put_back, part);
            assert!(least <= put_back && put_back <= greatest);
            if least == greatest {
                alike += 1;
            } else {
                met_least += u64::from(put_back == least);
                met_greatest += u64::from(put_back == greatest);
                between += u64::from(least < put_back && put_back < greatest);
            }
        }
    });
    println!(
        "carried: {between} faces between, {met_least} at the least, {met_greatest} at the greatest, {alike} of one velocity, \
         {banks} dry banks beside water"
    );
    assert!(single() || (met_least > 1_000 && met_greatest > 1_000 && between > 10_000 && alike > 1_000 && banks > 1_000));
}

/// The velocity of the first inner eastward face after a step, slope put back, and between what it stays.
fn first_of(site: &Wild) -> (i128, [i128; 2]) {
    let (number, next) = stepped(site);
    assert_eq!(number, 0);
    let (place, carried) = faces(site).swap_remove(0);
    let carried = carried.expect("no dry bank");
    (i128::from(next[place]) + carried.slope, [carried.least, carried.greatest])
}

/// Three cells in a row, 1 m of water in each, and the velocities of the two inner faces.
fn in_a_row(first: i32, second: i32) -> Wild {
    let mut site = Wild::empty(Card { columns: 3, rows: 1, dx: 1_000_000, dy: 1_000_000, dt: 100, steps: 1 });
    site.state[..3].fill(1_000_000);
    site.state[4] = first;
    site.state[5] = second;
    site
}

/// Water that leaves a wall behind it comes from there with velocity 0: the wall counts, and without it the least would be too great.
#[test]
fn a_wall_that_brought_water_counts() {
    assert_eq!(first_of(&in_a_row(6_000_000, 6_000_000)), (3_428_571, [0, 6_000_000]));
    // the other way the second face brings water, which goes to the wall, and the wall brings nothing
    assert_eq!(first_of(&in_a_row(-6_000_000, -6_000_000)), (-6_000_000, [-6_000_000, -6_000_000]));
    // nothing crosses the first face: it takes up what the second brings, and the wall brings nothing
    assert_eq!(first_of(&in_a_row(0, -6_000_000)), (-1_384_615, [-6_000_000, 0]));
}

/// A neighbour that brought nothing does not count, however fast it is.
#[test]
fn who_brought_nothing_does_not_count() {
    // the second face takes water away
    assert_eq!(first_of(&in_a_row(3_000_000, 9_000_000)), (2_181_818, [0, 3_000_000]));
    // no flow at all over the dual edge: what crosses the two faces is equal and opposite
    assert_eq!(first_of(&in_a_row(4_000_000, -4_000_000)).1, [0, 4_000_000]);
    // two rows, and nothing crosses between them
    let mut site = Wild::empty(Card { columns: 2, rows: 2, dx: 1_000_000, dy: 1_000_000, dt: 100, steps: 1 });
    site.state[..4].fill(1_000_000);
    let (below, above) = (site.east(1, 0), site.east(1, 1));
    site.state[below] = 1_000_000;
    site.state[above] = -9_000_000;
    assert_eq!(first_of(&site).1, [0, 1_000_000]);
    // until a micrometre does, from the north
    let between = site.north(0, 1);
    site.state[between] = -10;
    assert_eq!(first_of(&site).1, [-9_000_000, 1_000_000]);
}

/// A quotient that is not whole is cut towards zero, from either side, and passes no end.
#[test]
fn cut_towards_zero() {
    for sign in [1, -1] {
        // too slow for a micrometre to cross: the face's own velocity alone counts
        let slow = i128::from(sign);
        assert_eq!(first_of(&in_a_row(sign, 0)), (slow, [slow, slow]));
        // one crosses: 1,999,999 parts of 2,000,000 have the face's own velocity, and one, from a face or a wall that is still, has none
        let brisk = 10 * slow;
        assert_eq!(first_of(&in_a_row(10 * sign, 0)), (9 * slow, [brisk.min(0), brisk.max(0)]));
    }
}
