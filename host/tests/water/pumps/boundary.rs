//! What pumps are refused with, each number from both sides of its boundary, and the lowest of several.

use super::{pumped, ran, stepped, still_row, CARD, MOST, TOP};
use crate::library;
use crate::rng::Rng;
use crate::wild::Wild;
use water::raw::{Card, Tally};

/// A 3×2 site with water, of which a step is accepted.
fn good() -> Wild {
    let mut site = Wild::empty(Card { columns: 3, rows: 2, dy: 2_000_000, dt: 10, steps: 3, ..CARD });
    site.state[..6].copy_from_slice(&[1_000, 2_000, 3_000, 4_000, 5_000, 6_000]);
    site
}

/// The number of a step by both engines, which is a run's reason too.
fn number(site: &Wild, pumps: &[i32]) -> u32 {
    let (number, tally) = (stepped(site, pumps).0, ran(site, pumps).0);
    assert_eq!(tally.reason, number, "{pumps:?}");
    if (1..=3).contains(&number) {
        assert_eq!(tally, Tally { reason: number, ..Tally::default() }, "reasons 1 to 3 give 0 in all else");
    }
    number
}

/// So many words, all 0: pumps on the first cell that do nothing.
fn idle(words: usize) -> Vec<i32> {
    vec![0; words]
}

/// 1: 64 pumps and 65.
#[test]
fn how_many_pumps() {
    for (pumps, expected) in [(0, 0), (1, 0), (63, 0), (64, 0), (65, 1), (66, 1), (1_000, 1), (40_000, 1)] {
        assert_eq!(number(&good(), &idle(2 * pumps)), expected, "{pumps} pumps");
    }
}

/// 2: a word left over. How many pumps a list has is its length over 2, rounded down: 129 words are 64 pumps and a word, 131 are 65.
#[test]
fn odd_lengths() {
    for words in 0..=140 {
        let expected = match words {
            0..=129 => 2 * (words as u32 % 2),
            _ => 1,
        };
        assert_eq!(number(&good(), &idle(words)), expected, "{words} words");
    }
}

/// 3: the cells at both edges of the site and beyond, in every place of a list.
#[test]
fn every_cell_on_both_sides() {
    for pump in [0, 1, 31, 62, 63] {
        let with = |cell: i32| {
            let mut pumps = idle(128);
            pumps[2 * pump] = cell;
            number(&good(), &pumps)
        };
        for cell in 0..6 {
            assert_eq!(with(cell), 0, "cell {cell} of pump {pump}");
        }
        for cell in [-1, 6, 7, -6, i32::MIN, i32::MIN + 1, i32::MAX, 1 << 16, -(1 << 16), 16_383, 16_384] {
            assert_eq!(with(cell), 3, "cell {cell} of pump {pump}");
        }
    }
}

/// The last cell of the largest site and of others, and the one behind it: beyond the heights the state goes on with velocities, and no
/// pump gets there.
#[test]
fn the_cell_behind_the_last() {
    for (columns, rows) in [(1, 1), (1, 128), (128, 1), (32, 32), (128, 128)] {
        let site = Wild::empty(Card { columns, rows, ..CARD });
        let cells = (columns * rows) as i32;
        assert_eq!(number(&site, &[cells - 1, 5]), 0, "{columns}×{rows}");
        for beyond in [cells, cells + 1, site.state.len() as i32 - 1, site.state.len() as i32] {
            assert_eq!(number(&site, &[beyond, 0]), 3, "{columns}×{rows}, cell {beyond}");
        }
    }
}

/// 3: both ends of the amounts, in every place of a list.
#[test]
fn every_amount_on_both_sides() {
    let site = still_row(&[TOP - MOST, 5]);
    for pump in [0, 1, 31, 62, 63] {
        let with = |amount: i32| {
            let mut pumps = idle(128);
            pumps[2 * pump + 1] = amount;
            number(&site, &pumps)
        };
        for amount in [-MOST, 1 - MOST, -1, 0, 1, MOST - 1, MOST] {
            assert_eq!(with(amount), 0, "{amount} of pump {pump}");
        }
        for amount in [-MOST - 1, MOST + 1, i32::MIN, i32::MIN + 1, i32::MAX, -(1 << 20), 1 << 20] {
            assert_eq!(with(amount), 3, "{amount} of pump {pump}");
        }
    }
}

/// 5: an inlet that fills its cell to the top, and one that takes it past.
#[test]
fn an_inlet_at_the_top() {
    for amount in [1, 1_000, MOST] {
        assert_eq!(pumped(&[3, TOP - amount], &[1, amount]), Ok(vec![3, TOP]));
        assert_eq!(pumped(&[3, TOP - amount + 1], &[1, amount]), Err(5));
    }
    // by two inlets, the second of which is one too much
    assert_eq!(pumped(&[3, TOP - 10], &[1, 4, 1, 6]), Ok(vec![3, TOP]));
    assert_eq!(pumped(&[3, TOP - 10], &[1, 4, 1, 7]), Err(5));
    // a full cell stands what adds nothing
    assert_eq!(pumped(&[TOP], &[0, 0, 0, -1]), Ok(vec![TOP - 1]));
}

/// Past the top at its turn is refused, even if a later pump takes it back; 1 µm less is not.
#[test]
fn a_later_pump_does_not_help() {
    for later in [-1, -MOST] {
        assert_eq!(pumped(&[3, TOP - 9], &[1, 10, 1, later]), Err(5));
        assert_eq!(pumped(&[3, TOP - 10], &[1, 10, 1, later]), Ok(vec![3, TOP + later]));
        // an earlier one does
        assert_eq!(pumped(&[3, TOP - 9], &[1, -1, 1, 10]), Ok(vec![3, TOP]));
    }
}

/// Nor does the step: though so much water would leave the cell that it ends far below the top.
#[test]
fn nor_does_water_that_leaves() {
    let mut site = Wild::empty(CARD);
    site.ground[0] = -TOP;
    site.state[..2].copy_from_slice(&[TOP, 0]);
    site.state[3] = 1_000_000;
    site.card.dx = 20_000_000;
    site.card.dy = 20_000_000;
    let (number, next) = stepped(&site, &[]);
    assert_eq!((number, &next[..2]), (0, &[49_750_000, 250_000][..]));
    assert_eq!(stepped(&site, &[0, 1]).0, 5);
    assert_eq!(stepped(&site, &[0, -1, 0, 1]), (number, next));
}

/// A broken step limit, which no pump mends or breaks, comes before an inlet past the top.
#[test]
fn the_step_limit_comes_first() {
    let site = |u: i32| {
        let mut site = Wild::empty(CARD);
        site.state[..2].copy_from_slice(&[0, TOP]);
        site.state[3] = u;
        site
    };
    let (keeps, breaks) = (10_000_000, 10_000_001);
    let past = [1, 1, 0, -MOST];
    assert_eq!(number(&site(keeps), &past), 5);
    assert_eq!(number(&site(breaks), &past), 4);
    // with pumps that fit it is broken as well, and with none
    assert_eq!(number(&site(breaks), &[1, -MOST]), 4);
    assert_eq!(number(&site(breaks), &[0, MOST]), 4);
    assert_eq!(number(&site(breaks), &[]), 4);
}

/// Where the inlets fit, the number is that of the step from the pumped state: 5 where 1,000 flow into a cell that an inlet has filled
/// too far, 7 where a pump or an inlet has made a slope too steep.
#[test]
fn the_step_s_own_number_from_the_pumped_state() {
    let mut site = Wild::empty(Card { dt: 1_000, ..CARD });
    site.ground[0] = 49_001_000;
    site.state[..2].copy_from_slice(&[1_000_000, 49_998_000]);
    site.state[3] = 1_000;
    assert_eq!(number(&site, &[1, 1_000]), 0);
    assert_eq!(number(&site, &[1, 1_001]), 5);
    assert_eq!(number(&site, &[1, 2_000]), 5);
    assert_eq!(number(&site, &[1, 2_000, 1, -1_000]), 0);
    // with gravity's own number for a side and a step of a second, the slope is the rise
    let mut steep = Wild::empty(Card { dx: 9_806_650, dt: 1_000, ..CARD });
    steep.ground[1] = 20_000_000 - 10;
    steep.state[..2].fill(100);
    assert_eq!(number(&steep, &[1, 10]), 0);
    assert_eq!(number(&steep, &[1, 11]), 7);
    assert_eq!(number(&steep, &[0, -10]), 0);
    assert_eq!(number(&steep, &[0, -11]), 7);
    assert_eq!(number(&steep, &[0, -11, 1, -1]), 0);
}

/// The lowest number that applies: everything wrong, taken away one by one, of the site and of the pumps by turns.
#[test]
fn the_lowest_number_is_given() {
    let wrong_pumps = |length: usize| {
        let mut pumps = idle(length);
        pumps[0] = -1;
        pumps[1] = MOST + 1;
        pumps
    };
    let full = |change: fn(&mut Wild)| {
        let mut site = Wild::empty(CARD);
        site.state[..2].copy_from_slice(&[0, TOP]);
        site.state[3] = 10_000_001;
        change(&mut site);
        site
    };
    // 1 by the card, by the pumps, by both; each of them before any length or value
    assert_eq!(number(&full(|site| site.card.dt = 0), &wrong_pumps(129)), 1);
    assert_eq!(number(&full(|site| site.ground.truncate(1)), &wrong_pumps(131)), 1);
    assert_eq!(number(&full(|site| site.card.dt = 0), &wrong_pumps(131)), 1);
    assert_eq!(number(&full(|site| site.card.columns = 129), &[]), 1);
    // 2 by the ground, by the pumps, by both; each of them before any value
    assert_eq!(number(&full(|site| site.ground.truncate(1)), &wrong_pumps(128)), 2);
    assert_eq!(number(&full(|site| site.state[0] = -1), &wrong_pumps(129)), 2);
    assert_eq!(number(&full(|site| site.ground.truncate(1)), &wrong_pumps(3)), 2);
    // 3 by the state, by the pumps, by both; each of them before the limit
    assert_eq!(number(&full(|site| site.state[0] = -1), &idle(2)), 3);
    assert_eq!(number(&full(|_| ()), &wrong_pumps(128)), 3);
    assert_eq!(number(&full(|site| site.state[0] = -1), &wrong_pumps(2)), 3);
    // then 4, 5 and 0
    assert_eq!(number(&full(|_| ()), &[1, 1]), 4);
    assert_eq!(number(&full(|site| site.state[3] = 10), &[1, 1]), 5);
    assert_eq!(number(&full(|site| site.state[3] = 0), &[0, 0]), 7);
    assert_eq!(number(&full(|site| site.state[..4].fill(0)), &[1, 1]), 0);
}

/// A next state or a scratch of another length is 2 beside any pumps that are not too many.
#[test]
fn the_other_list_of_another_length() {
    let site = good();
    for (pumps, expected) in [(idle(0), 2), (idle(4), 2), (idle(5), 2), (vec![-1, 0], 2), (idle(130), 1)] {
        for words in [22, 24] {
            let (mut next, mut state) = (vec![-7; words], site.state.clone());
            let step = library::step_with(&mut Rng::new(1), site.card, &site.ground, &site.state, &pumps, &mut next);
            let tally = library::run_with(&mut Rng::new(1), site.card, &site.ground, &mut state, &pumps, &mut next);
            assert_eq!((step, tally.reason), (expected, expected));
        }
    }
}
