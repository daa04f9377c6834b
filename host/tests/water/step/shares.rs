//! Own shares of which nothing is left. An own share loses no more than leaves its two cells, and under the step limit that is no more
//! than they hold: so refusal 6 has no input. The model asserts it of every face of every step in these tests.

use super::stepped;
use crate::given::Given;
use crate::model;
use crate::trials::{single, trials};
use crate::wild::{self, Wild};
use water::raw::Card;

/// Two cells in the middle of 4×3, (1, 1) with 1 m of water and (2, 1) with 2 m, and the still face between them. In a cell of these sides
/// twice the speeds out over west and east plus those out over south and north may come to 20,000,000, and here they do.
fn emptied() -> Wild {
    let mut site = Wild::empty(Card { columns: 4, rows: 3, dx: 1_000_000, dy: 2_000_000, dt: 100, steps: 1 });
    site.state[5] = 1_000_000;
    site.state[6] = 2_000_000;
    for (place, velocity) in
        out_of_both(&site).into_iter().zip([-4_000_000, -5_000_000, 7_000_000, 6_000_000, -7_900_000, 100_000])
    {
        site.state[place] = velocity;
    }
    site
}

/// The three outer faces of the one cell, and those of the other.
fn out_of_both(site: &Wild) -> [usize; 6] {
    [site.east(1, 1), site.north(1, 1), site.north(1, 2), site.east(3, 1), site.north(2, 1), site.north(2, 2)]
}

/// The own share of the inner eastward face between (1, 1) and (2, 1), the fifth of nine.
fn middle_share(site: &Wild) -> i128 {
    model::own_shares(&site.site())[4]
}

/// Both cells are emptied over three faces each, and the step limit is met exactly: nothing is left of the own share.
#[test]
fn nothing_is_left() {
    let site = emptied();
    assert_eq!(middle_share(&site), 0);
    let (number, next) = stepped(&site);
    assert_eq!(number, 0);
    assert_eq!(next[4..8], [400_000, 0, 0, 1_200_000]);
    assert_eq!((next[1], next[2], next[9], next[10]), (250_000, 790_000, 350_000, 10_000));
    assert_eq!(next[site.east(2, 1)], 0);
    // nor of those of the faces on either side, which move: their own velocities are gone, and the surface's slope alone moves them
    assert_eq!([3, 5].map(|face| model::own_shares(&site.site())[face]), [0, 0]);
    assert_eq!((next[site.east(1, 1)], next[site.east(3, 1)]), (392_266, -1_176_798));
}

/// The face in the middle moves: (1, 1) is emptied over it and to the south and north. What flows in from behind brings the velocity of
/// the face there, and of its own nothing is left.
#[test]
fn nothing_is_left_of_a_face_that_moves() {
    let mut site = emptied();
    let (behind, own) = (site.east(1, 1), site.east(2, 1));
    site.state[behind] = 1_234_567;
    site.state[own] = 4_000_000;
    assert_eq!(middle_share(&site), 0);
    let (number, next) = stepped(&site);
    assert_eq!(number, 0);
    assert_eq!((next[5], next[6]), (0, 400_000));
    // less the slope of a surface that stands 400,000 higher in the east
    assert_eq!(next[own], 1_234_567 - 392_266);
}

/// One µm/s more over any of the six faces breaks the limit, and the share would be negative; one less leaves something.
#[test]
fn both_sides_of_the_brink() {
    for place in out_of_both(&emptied()) {
        let mut site = emptied();
        // enough water for one µm/s to be seen
        site.state[5] = 20_000_000;
        site.state[6] = 20_000_000;
        assert_eq!(middle_share(&site), 0);
        assert_eq!(stepped(&site).0, 0);
        let way = site.state[place].signum();
        site.state[place] += way;
        assert_eq!(stepped(&site).0, 4);
        assert!(middle_share(&site) < 0, "without the limit a share may be negative");
        site.state[place] -= 2 * way;
        assert!(middle_share(&site) > 0);
        assert_eq!(stepped(&site).0, 0);
    }
}

/// Nothing is left of the own share, and water comes in over one side: the new velocity is that of the face that it comes from.
#[test]
fn only_what_comes_in() {
    let mut site = emptied();
    // out over two faces each, west and south, east and south; in from the north of both
    let velocities = [-4_000_000, -12_000_000, -3_000_000, 6_000_000, -8_000_000, -3_000_000];
    for (place, velocity) in out_of_both(&site).into_iter().zip(velocities) {
        site.state[place] = velocity;
    }
    site.state[9] = 1_000_000;
    site.state[10] = 1_000_000;
    let above = site.east(2, 2);
    site.state[above] = 1_234_567;
    assert_eq!(middle_share(&site), 0);
    let (number, next) = stepped(&site);
    assert_eq!(number, 0);
    assert_eq!((next[5], next[6]), (150_000, 150_000));
    assert_eq!(next[site.east(2, 1)], 1_234_567);
}

/// Random sites on this brink: nothing, or next to nothing, is left.
#[test]
fn random_brinks() {
    let (mut given, mut nothing, mut shares) = (Given::default(), 0, 0);
    trials("own shares", 6_000, |rng| {
        let site = wild::of_share(rng);
        let number = stepped(&site).0;
        given.count(number);
        if number == 0 {
            shares += 1;
            nothing += u64::from(middle_share(&site) == 0 && (site.state[5] > 1 || site.state[6] > 1));
        }
    });
    println!("own shares: {nothing} of {shares} accepted steps left nothing of two cells with water");
    given.assert_some("own shares", &[0, 4, 7], 20);
    assert!(single() || nothing * 5 > shares);
}
