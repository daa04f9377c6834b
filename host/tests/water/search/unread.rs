//! A register that must not be read: longer than any list, as a count gone wrong and cast to an unsigned length would have it, or lent
//! with a bad card or with lists of a wrong length. It lies nowhere, so that one read of it stops the tests.

use super::{site, ALL};
use crate::wild::Wild;
use std::ptr::NonNull;
use std::time::{Duration, Instant};
use water::raw::{self, Card, Chamber, Found};

/// Over 1,000 chambers, up to more than any memory holds.
const TOO_MANY: [usize; 7] = [1_001, 5_000, 1 << 20, 1 << 32, 1 << 59, 1 << 60, usize::MAX];

/// What a walk over 2^59 chambers cannot keep, and a look at the lengths always does.
const SOON: Duration = Duration::from_secs(20);

/// The search over a row of so many chambers.
fn row(site: &Wild, length: usize) -> Found {
    let mut found = [5; 3];
    let chambers = NonNull::<Chamber>::dangling().as_ptr();
    // Safety, here and below: the site's lists and `found` are lent with their own lengths, and nothing of the register is read.
    let answer = unsafe {
        raw::water_search(
            site.card,
            site.ground.as_ptr(),
            site.ground.len(),
            site.state.as_ptr(),
            site.state.len(),
            chambers,
            length,
            ALL,
            0,
            found.as_mut_ptr(),
            found.len(),
        )
    };
    assert_eq!(found, [5; 3], "the list as lent");
    answer
}

/// The search over two lists of so many numbers.
fn lists(site: &Wild, xs: usize, ys: usize) -> Found {
    let mut found = [5; 3];
    let numbers = NonNull::<i64>::dangling().as_ptr();
    let answer = unsafe {
        raw::water_search_lists(
            site.card,
            site.ground.as_ptr(),
            site.ground.len(),
            site.state.as_ptr(),
            site.state.len(),
            numbers,
            xs,
            numbers,
            ys,
            ALL,
            0,
            found.as_mut_ptr(),
            found.len(),
        )
    };
    assert_eq!(found, [5; 3], "the list as lent");
    answer
}

/// Both forms give this number, with the count 0, and soon.
fn refused(site: &Wild, lengths: &[usize], number: u32) {
    let began = Instant::now();
    for &length in lengths {
        assert_eq!(row(site, length), Found { number, count: 0 }, "a row of {length}");
        assert_eq!(lists(site, length, length), Found { number, count: 0 }, "two lists of {length}");
    }
    assert!(began.elapsed() < SOON, "{:?} for {} refusals", began.elapsed(), 2 * lengths.len());
}

#[test]
fn too_many_chambers_are_refused_unread() {
    refused(&site(), &TOO_MANY, 2);
    for length in TOO_MANY {
        assert_eq!(lists(&site(), length, length - 1).number, 2);
        assert_eq!(lists(&site(), 3, length).number, 2);
    }
}

/// 1 comes before 2, and before any chamber is looked at.
#[test]
fn a_bad_card_is_refused_before_a_chamber_is_read() {
    let good = site();
    let cards = [
        Card { columns: 0, ..good.card },
        Card { rows: 129, ..good.card },
        Card { dx: 99_999, ..good.card },
        Card { dt: 0, ..good.card },
        Card { steps: 10_001, ..good.card },
    ];
    for card in cards {
        let bad = Wild { card, ..site() };
        refused(&bad, &TOO_MANY, 1);
        refused(&bad, &[0, 1, 3, 1_000], 1);
    }
}

#[test]
fn a_wrong_length_is_refused_before_a_chamber_is_read() {
    let (mut ground, mut state, mut swapped) = (site(), site(), site());
    ground.ground.pop();
    state.state.push(0);
    std::mem::swap(&mut swapped.ground, &mut swapped.state);
    for wrong in [ground, state, swapped] {
        refused(&wrong, &TOO_MANY, 2);
        refused(&wrong, &[0, 1, 3, 1_000], 2);
    }
}
