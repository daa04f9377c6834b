//! The order of the list: several pumps on one cell act one after the other, each on what the one before it left.

use super::{moved, pumped, MOST, TOP};
use crate::model;
use crate::trials::{single, trials};
use crate::wild;

#[test]
fn two_pumps_on_one_cell_in_both_orders() {
    let (pump, inlet) = ([1, -800_000], [1, 300_000]);
    let (pump_first, inlet_first) = ([pump, inlet].concat(), [inlet, pump].concat());
    // 500,000 are there: the pump finds these, or these and what the inlet added
    assert_eq!(pumped(&[9, 500_000], &pump_first), Ok(vec![9, 300_000]));
    assert_eq!(moved(&[9, 500_000], &pump_first), (300_000, 500_000));
    assert_eq!(pumped(&[9, 500_000], &inlet_first), Ok(vec![9, 0]));
    assert_eq!(moved(&[9, 500_000], &inlet_first), (300_000, 800_000));
    // where there is enough for the pump, the order makes no difference
    for pumps in [pump_first, inlet_first] {
        assert_eq!(pumped(&[9, 800_000], &pumps), Ok(vec![9, 300_000]));
        assert_eq!(moved(&[9, 800_000], &pumps), (300_000, 800_000));
    }
}

/// Two pumps that both take share what is there: the first has its fill.
#[test]
fn two_pumps_that_take() {
    assert_eq!(pumped(&[1_000], &[0, -700, 0, -700]), Ok(vec![0]));
    assert_eq!(moved(&[1_000], &[0, -700, 0, -700]), (0, 1_000));
    assert_eq!(pumped(&[1_401], &[0, -700, 0, -700]), Ok(vec![1]));
}

/// At the top an inlet in front of the pump is refused, and behind it is not.
#[test]
fn the_order_decides_what_is_refused() {
    assert_eq!(pumped(&[TOP], &[0, 1, 0, -1]), Err(5));
    assert_eq!(pumped(&[TOP], &[0, -1, 0, 1]), Ok(vec![TOP]));
}

/// Other pumps between two on one cell change nothing for them.
#[test]
fn others_in_between() {
    assert_eq!(pumped(&[500, 500, 500], &[1, -800, 0, MOST, 2, -MOST, 1, 300]), Ok(vec![500 + MOST, 300, 0]));
    assert_eq!(pumped(&[500, 500, 500], &[1, 300, 0, MOST, 2, -MOST, 1, -800]), Ok(vec![500 + MOST, 0, 0]));
}

/// Lists turned round on random sites: where each pump has a cell of its own the order makes no difference, and with several on one cell it
/// often does.
#[test]
fn lists_turned_round() {
    let (mut the_same, mut others) = (0, 0);
    trials("lists turned round", 3_000, |rng| {
        let site = wild::good(rng);
        let pumps = wild::pumps(rng, &site);
        let round: Vec<i32> = pumps.chunks_exact(2).rev().flatten().copied().collect();
        let (one, other) = (super::stepped(&site, &pumps), super::stepped(&site, &round));
        let mut cells: Vec<i32> = pumps.chunks_exact(2).map(|pump| pump[0]).collect();
        cells.sort_unstable();
        if cells.windows(2).all(|pair| pair[0] < pair[1]) {
            assert_eq!(one, other, "each on a cell of its own");
            the_same += u64::from(pumps.len() > 2 && one.0 == 0);
        } else {
            others += u64::from(model::pumped(&pumps, &site.state) != model::pumped(&round, &site.state));
        }
    });
    println!("pumps: {the_same} steps with a list turned round were the same, {others} lists turned round made another state");
    assert!(single() || (the_same > 150 && others > 150));
}
