//! Pumps and inlets on numbers: what each does to its cell, and the step that is made from the pumped state.

use super::{moved, one_cell, pumped, ran, stepped, CARD, MOST, TOP};
use crate::model;
use crate::wild::Wild;
use water::raw::{Card, Tally};

/// Two cells of 1 m on flat ground, u being the velocity between them.
fn pair(heights: [i32; 2], u: i32) -> Wild {
    let mut site = Wild::empty(CARD);
    site.state[..2].copy_from_slice(&heights);
    site.state[3] = u;
    site
}

fn pair_after(heights: [i32; 2], u: i32) -> (u32, Vec<i32>) {
    (0, pair(heights, u).state)
}

#[test]
fn an_inlet_adds_its_amount() {
    assert_eq!(pumped(&[5, 7], &[1, 300]), Ok(vec![5, 307]));
    assert_eq!(moved(&[5, 7], &[1, 300]), (300, 0));
    assert_eq!(pumped(&[0, 0], &[0, 1]), Ok(vec![1, 0]));
    assert_eq!(pumped(&[0], &[0, MOST]), Ok(vec![MOST]));
}

/// Down to nothing and no further, 1 µm on either side.
#[test]
fn a_pump_takes_no_more_than_is_there() {
    for (there, left, taken) in [(1_001, 1, 1_000), (1_000, 0, 1_000), (999, 0, 999), (1, 0, 1)] {
        assert_eq!(pumped(&[7, there], &[1, -1_000]), Ok(vec![7, left]));
        assert_eq!(moved(&[7, there], &[1, -1_000]), (0, taken));
    }
    assert_eq!(pumped(&[TOP], &[0, -MOST]), Ok(vec![TOP - MOST]));
}

#[test]
fn a_pump_on_a_dry_cell_takes_nothing() {
    for amount in [-1, -MOST] {
        assert_eq!(pumped(&[0, 9], &[0, amount]), Ok(vec![0, 9]));
        assert_eq!(moved(&[0, 9], &[0, amount]), (0, 0));
    }
}

/// An amount of 0 is allowed, wherever its cell is and however many there are.
#[test]
fn an_amount_of_0_does_nothing() {
    assert_eq!(pumped(&[0, TOP], &[0, 0, 1, 0]), Ok(vec![0, TOP]));
    assert_eq!(moved(&[0, TOP], &[0, 0, 1, 0]), (0, 0));
    assert_eq!(pumped(&[3], &[0; 128]), Ok(vec![3]));
}

/// The cell is its place in the ground's list: 3 columns and 2 rows have the cells 0 to 5, south to north and west to east.
#[test]
fn each_cell_by_its_place() {
    let mut site = Wild::empty(Card { columns: 3, rows: 2, dt: 1, ..CARD });
    site.state[..6].fill(100);
    for cell in 0..6 {
        let (number, next) = stepped(&site, &[cell, 10 * (cell + 1)]);
        let mut expected = [100; 6];
        expected[cell as usize] += 10 * (cell + 1);
        assert_eq!((number, &next[..6]), (0, &expected[..]));
    }
}

/// The step is made from the pumped state: an inlet levels two cells, and nothing pulls any more; a pump makes the slope.
#[test]
fn the_step_is_made_from_the_pumped_state() {
    let start = pair([2_000_000, 1_000_000], 0);
    assert_eq!(stepped(&start, &[]), pair_after([2_000_000, 1_000_000], 980_665));
    assert_eq!(stepped(&start, &[1, 1_000_000]), pair_after([2_000_000, 2_000_000], 0));
    assert_eq!(stepped(&start, &[0, -1_000_000]), pair_after([1_000_000, 1_000_000], 0));
    assert_eq!(stepped(&start, &[0, -200_000]), pair_after([1_800_000, 1_000_000], 784_532));
}

/// The transfers take the pumped heights, and no pump changes a velocity: of 3 µm half would cross, 1 µm; of 5 µm 2 µm do; of none, none.
#[test]
fn transfers_take_the_pumped_heights() {
    let crossed = |amount: i32| stepped(&pair([3, 3], 5_000_000), &[0, amount]).1[..2].to_vec();
    assert_eq!(crossed(0), [2, 4]);
    assert_eq!(crossed(2), [3, 5]);
    assert_eq!(crossed(-3), [0, 3]);
    // water that ran towards the wet cell is still carried over a cell that is pumped dry; the slope stops it
    assert_eq!(stepped(&pair([1_000_000, 1_000_000], 980_665), &[0, -1_000_000]), pair_after([0, 1_000_000], 0));
}

/// A pump makes a dry bank, and an inlet makes one none.
#[test]
fn banks_are_those_of_the_pumped_state() {
    let mut site = pair([1_000_000, 1], -3_000_000);
    site.ground[1] = 1_000_000;
    site.state[0] = 999_999;
    // 1 µm on the bank is less than a µm that crosses, and more than a dry cell
    let (number, next) = stepped(&site, &[]);
    assert_eq!((number, &next[..2], next[3]), (0, &[999_999, 1][..], -3_000_001));
    let (number, next) = stepped(&site, &[1, -1]);
    assert_eq!((number, &next[..2], next[3]), (0, &[999_999, 0][..], 0));
}

/// Each step of a run pumps anew: 200 mm at a time out of a metre, until it is dry; another cell's inlet goes on.
#[test]
fn a_run_pumps_before_each_step() {
    let run = |steps: u32, pumps: &[i32]| {
        let mut site = one_cell(1_000_000);
        site.card.steps = steps;
        let (tally, state) = ran(&site, pumps);
        (tally.added, tally.taken, state[0])
    };
    assert_eq!(run(0, &[0, -200_000]), (0, 0, 1_000_000));
    assert_eq!(run(1, &[0, -200_000]), (0, 200_000, 800_000));
    assert_eq!(run(5, &[0, -200_000]), (0, 1_000_000, 0));
    assert_eq!(run(9, &[0, -200_000]), (0, 1_000_000, 0));
    assert_eq!(run(10_000, &[0, -200_000, 0, 3]), (30_000, 1_029_997, 3));
    assert_eq!(run(3, &[0, 7, 0, -5]), (21, 15, 1_000_006));
}

/// The README's example: two steps without pumps, and two more with a pump on the one cell and an inlet on the other.
#[test]
fn the_readme_s_run() {
    let mut site = pair([2_000_000, 1_000_000], 0);
    site.card.steps = 2;
    let (tally, state) = ran(&site, &[]);
    assert_eq!(tally, Tally { steps: 2, reason: 0, top: 2_000_000, added: 0, taken: 0 });
    assert_eq!(state[..2], [1_803_867, 1_196_133]);
    site.state = state;
    let (tally, state) = ran(&site, &[0, -100_000, 1, 20_000]);
    assert_eq!(tally, Tally { steps: 2, reason: 0, top: 1_803_867, added: 40_000, taken: 200_000 });
    assert_eq!(state[..2], [1_164_169, 1_675_831]);
}

/// The most that can be added and taken: 64 inlets and 64 pumps of 1 m for 10,000 steps. Each total has 40 bits.
#[test]
fn the_greatest_totals() {
    let mut site = one_cell(0);
    site.card.steps = 10_000;
    let by_turns = |first: i32| (0..64).flat_map(|k| [0, if k % 2 == 0 { first } else { -first }]).collect::<Vec<i32>>();
    let (tally, state) = ran(&site, &by_turns(MOST));
    let half = 320_000_000_000;
    assert_eq!(tally, Tally { steps: 10_000, reason: 0, top: 0, added: half, taken: half });
    assert_eq!(state, [0; 5]);
    // the first pump finds nothing in the first step, and in each later one what the last inlet left
    let (tally, state) = ran(&site, &by_turns(-MOST));
    assert_eq!(tally, Tally { steps: 10_000, reason: 0, top: MOST, added: half, taken: half - 1_000_000 });
    assert_eq!(state[0], MOST);
}

/// An empty list is no pumps: number and next state are those of the model's step that knows none.
#[test]
fn an_empty_list_is_a_step_without_pumps() {
    for site in [pair([2_000_000, 1_000_000], 0), pair([3, 3], 5_000_000), pair([1, 1], 10_000_001), one_cell(TOP)] {
        let (number, next) = stepped(&site, &[]);
        assert_eq!(if number == 0 { Ok(next) } else { Err(number) }, model::advance_unpumped(&site.site()));
    }
}
