//! Random readings of every sort: all as the model has them, and a greater value never gives a smaller height.

use super::{beside, TOP, UNITS};
use crate::given::Given;
use crate::library;
use crate::trials::{single, trials};

#[test]
fn random_readings() {
    let mut given = Given::default();
    // readings with a height above 0, and those that are the first float of their height
    let (mut heights, mut first) = (0, 0);
    trials("staff", 20_000, |rng| {
        let unit = &UNITS[rng.below(2) as usize];
        let value = unit.any(rng);
        let answer = library::staff(unit.kind, value);
        given.count(answer.number);
        if answer.height > 0 {
            heights += 1;
            first += u64::from(unit.read(beside(value, -1)) == Some(answer.height - 1));
        }
    });
    given.assert_often("staff", &[0, 3], 5);
    println!("staff: {heights} heights above 0, {first} by the first float that has it");
    assert!(single() || (heights > 10_000 && first > 500));
}

/// Any bits at all, in both units. A quarter of them are read, nearly all as 0: most floats are very small or very great.
#[test]
fn random_bits() {
    let mut read = 0u64;
    trials("staff bits", 20_000, |rng| {
        let value = f64::from_bits(rng.next());
        read += UNITS.iter().filter(|unit| unit.read(value).is_some()).count() as u64;
    });
    println!("staff bits: {read} were read");
    assert!(single() || read > 8_000);
}

/// In the order of their values, heights rise, and behind the first that is refused all are.
#[test]
fn a_greater_value_gives_no_smaller_height() {
    for unit in &UNITS {
        let mut values = vec![];
        trials("staff in order", 10_000, |rng| values.push(unit.any(rng)));
        values.retain(|&value| value >= 0.0);
        values.sort_by(|a, b| a.partial_cmp(b).expect("numbers"));
        let answers: Vec<Option<i32>> = values.iter().map(|&value| unit.read(value)).collect();
        // a refused one stands above every height
        let rank = |answer: Option<i32>| answer.unwrap_or(TOP + 1);
        for (pair, values) in answers.windows(2).zip(values.windows(2)) {
            assert!(rank(pair[0]) <= rank(pair[1]), "{values:?} give {pair:?}");
        }
        let read = answers.iter().filter(|answer| answer.is_some()).count();
        println!("staff in order: {} values, {read} read", values.len());
        assert!(single() || (read > 5_000 && values.len() - read > 500));
    }
}

/// A height turned into metres or feet and read gives the same height.
#[test]
fn heights_come_back() {
    for height in (0..=TOP).step_by(997).chain([TOP - 1, TOP]) {
        for unit in &UNITS {
            assert_eq!(unit.read(f64::from(height) / unit.factor), Some(height));
        }
    }
}
