//! "Numbers to check by", every one of them, in the document's order, with those of document 02's requests. Sides 1,000,000, dt 100, flat
//! ground 0 unless told.

use crate::library;
use crate::rng::Rng;
use water::raw::{self, Card, Chamber, Found, Tally, Window};

const CARD: Card = Card { columns: 2, rows: 1, dx: 1_000_000, dy: 1_000_000, dt: 100, steps: 0 };

/// A state of the 2×1 site: two heights and the middle velocity.
fn pair(heights: [i32; 2], middle: i32) -> Vec<i32> {
    vec![heights[0], heights[1], 0, middle, 0, 0, 0, 0, 0]
}

/// One step of the 2×1 site, which the model must agree with.
fn step_pair(ground: [i32; 2], heights: [i32; 2], middle: i32) -> Result<Vec<i32>, u32> {
    let mut next = vec![-7; 9];
    match library::step(&mut Rng::new(1), CARD, &ground, &pair(heights, middle), &mut next) {
        0 => Ok(next),
        number => {
            assert_eq!(next, [-7; 9], "a refused step leaves the next state as lent");
            Err(number)
        }
    }
}

/// A state of the 3×1 site: three heights and the two inner velocities.
fn three(heights: [i32; 3], first: i32, second: i32) -> Vec<i32> {
    [&heights[..], &[0, first, second, 0], &[0; 6]].concat()
}

/// One accepted step of the 3×1 site, which the model must agree with.
fn step_three(ground: [i32; 3], state: &[i32]) -> Vec<i32> {
    let mut next = vec![-7; 13];
    assert_eq!(library::step(&mut Rng::new(1), Card { columns: 3, ..CARD }, &ground, state, &mut next), 0);
    next
}

#[test]
fn two_steps_from_still() {
    assert_eq!(step_pair([0, 0], [2_000_000, 1_000_000], 0), Ok(pair([2_000_000, 1_000_000], 980_665)));
    assert_eq!(step_pair([0, 0], [2_000_000, 1_000_000], 980_665), Ok(pair([1_803_867, 1_196_133], 1_512_534)));
}

#[test]
fn the_step_limit() {
    assert_eq!(step_pair([0, 0], [2_000_000, 1_000_000], 10_000_000), Ok(pair([0, 3_000_000], 391_338)));
    assert_eq!(step_pair([0, 0], [2_000_000, 1_000_000], 10_000_001), Err(4));
}

/// Document 02, [9]: water that passes through the middle cell of three is no longer refused.
#[test]
fn water_passes_through() {
    let next = step_three([0; 3], &three([1_000_000; 3], 6_000_000, 6_000_000));
    assert_eq!(next, three([400_000, 1_000_000, 1_600_000], 2_840_172, 5_411_601));
}

#[test]
fn a_transfer_goes_towards_zero() {
    // from height 3 at 5,000,000: 3·5,000,000·100 / 1,000,000,000 = 1.5
    assert_eq!(step_pair([0, 0], [3, 3], 5_000_000).unwrap()[..2], [2, 4]);
    assert_eq!(step_pair([0, 0], [3, 3], -5_000_000).unwrap()[..2], [4, 2]);
}

#[test]
fn three_cells_at_rest() {
    let state = three([1_000_000, 600_000, 900_000], 0, 0);
    assert_eq!(step_three([0, 400_000, 100_000], &state), state);
}

/// Document 02, [2]: the bank that pulled with -490,332 no longer does; with 1 µm of water on it, it is none.
#[test]
fn a_dry_bank_does_not_pull() {
    assert_eq!(step_pair([0, 1_500_000], [1_000_000, 0], 0), Ok(pair([1_000_000, 0], 0)));
    assert_eq!(step_pair([0, 1_500_000], [1_000_000, 1], 0), Ok(pair([1_000_000, 1], -490_333)));
}

/// At the surface it is a bank, and 1 µm below it is none; there a rise of -1 rounds to no slope.
#[test]
fn a_bank_as_high_as_the_water() {
    let left = -3_000_000;
    for ground in [0, -400_000] {
        let surface = ground + 1_000_000;
        assert_eq!(step_pair([ground, surface], [1_000_000, 0], left), Ok(pair([1_000_000, 0], 0)));
        assert_eq!(step_pair([ground, surface - 1], [1_000_000, 0], left), Ok(pair([1_000_000, 0], left)));
    }
}

/// New heights count: the west cell is dry only after the step.
#[test]
fn a_bank_by_its_new_height() {
    assert_eq!(step_pair([3_000_000, 0], [2_000_000, 1_000_000], 10_000_000), Ok(pair([0, 3_000_000], 0)));
}

/// And so does the new surface: the water that comes up to the bank is stopped there, and runs over one that is 1 µm lower.
#[test]
fn a_bank_by_the_new_surface() {
    let state = three([2_000_000, 1_000_000, 0], 5_000_000, 0);
    for (bank, second) in [(2_000_000, 0), (1_999_999, 2_500_000)] {
        assert_eq!(step_three([0, 0, bank], &state), three([1_000_000, 2_000_000, 0], 2_352_668, second));
    }
}

#[test]
fn depth_texts() {
    let text = |height| {
        let mut scratch = vec![b'-'; 10];
        let length = library::depth_text(&mut Rng::new(1), height, &mut scratch);
        String::from_utf8(scratch[..length].to_vec()).unwrap()
    };
    assert_eq!(text(0), "dry");
    assert_eq!(text(1), "<1 cm");
    assert_eq!(text(9_999), "<1 cm");
    assert_eq!(text(10_000), "1 cm");
    assert_eq!(text(14_999), "1 cm");
    assert_eq!(text(15_000), "2 cm");
    assert_eq!(text(50_000_000), "5000 cm");
    assert_eq!(text(50_000_001), "");
    assert_eq!(text(-1), "");
}

fn run_one_cell(card: Card) -> (Tally, Vec<i32>, Vec<i32>) {
    let (mut state, mut scratch) = (vec![7, 0, 0, 0, 0], vec![5; 5]);
    let tally = library::run(&mut Rng::new(1), card, &[0], &mut state, &mut scratch);
    (tally, state, scratch)
}

#[test]
fn one_cell_for_ten_thousand_steps() {
    let card = Card { columns: 1, ..CARD };
    let whole = run_one_cell(Card { steps: 10_000, ..card });
    assert_eq!(whole, (Tally { steps: 10_000, reason: 0, top: 7, added: 0, taken: 0 }, vec![7, 0, 0, 0, 0], vec![0; 5]));
    let refused = (Tally { steps: 0, reason: 1, top: 0, added: 0, taken: 0 }, vec![7, 0, 0, 0, 0], vec![5; 5]);
    assert_eq!(run_one_cell(Card { steps: 10_001, ..card }), refused);
    assert_eq!(run_one_cell(Card { columns: 129, ..card }), refused);
}

/// The search for one chamber at x of the 2×1 site, by both forms.
fn search_one(x: i64, window: Window, depth: i32) -> (Found, Vec<u32>) {
    let state = pair([2_000_000, 1_000_000], 0);
    let question = library::Question { card: CARD, ground: &[0, 0], state: &state, window, depth };
    let (mut found, mut found_again) = (vec![77; 2], vec![77; 2]);
    let answer = library::search(&mut Rng::new(1), question, &[Chamber { x, y: 0 }], &mut found);
    let again = library::search_lists(&mut Rng::new(1), question, &[x], &[0], &mut found_again);
    assert_eq!((answer, &found), (again, &found_again), "both forms give the same answer");
    (answer, found)
}

#[test]
fn chambers_on_a_line_between_cells() {
    let all = Window { west: -1.0, south: -1.0, east: 3e6, north: 3e6 };
    let listed = (Found { number: 0, count: 1 }, vec![0, 77]);
    let not_listed = (Found { number: 0, count: 0 }, vec![77, 77]);
    // column 1, which is 1,000,000 deep, and not column 0, which is 2,000,000 deep
    for x in [1_000_000, 2_000_000] {
        assert_eq!(search_one(x, all, 1_000_000), listed);
        assert_eq!(search_one(x, all, 1_000_001), not_listed);
    }
    assert_eq!(search_one(999_999, all, 2_000_000), listed);
    assert_eq!(search_one(2_000_001, all, 0), (Found { number: 3, count: 0 }, vec![77, 77]));
    assert_eq!(search_one(1_000_000, Window { west: 1_000_000.25, ..all }, 0), not_listed);
    assert_eq!(search_one(1_000_000, Window { west: 1_000_000.0, ..all }, 0), listed);
}

/// The player's sheet: the first case with 2 steps.
pub fn first_sheet() -> Vec<u8> {
    let mut bytes = vec![0; 63];
    let state = pair([2_000_000, 1_000_000], 0);
    let wrote = library::write_sheet(&mut Rng::new(1), Card { steps: 2, ..CARD }, &[0, 0], &state, &mut bytes);
    assert_eq!(wrote, raw::Wrote { number: 0, size: 63 });
    bytes
}

#[test]
fn the_sheet_of_63_bytes() {
    let sheet = first_sheet();
    let head = [0, 0, 0, 63, 1, 2, 1, 0, 0x0f, 0x42, 0x40, 0, 0x0f, 0x42, 0x40, 0, 100, 0, 2];
    assert_eq!(sheet[..19], head);
    assert_eq!(sheet[19..35], [0, 0, 0, 0, 0, 0, 0, 0, 0, 0x1e, 0x84, 0x80, 0, 0x0f, 0x42, 0x40]);
    assert_eq!(sheet[35..], [0; 28]);
}
