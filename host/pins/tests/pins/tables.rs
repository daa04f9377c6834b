//! Tables to ask about: good ones with so many pins in any places, and words that spoil one.

use crate::model::{self, pin};
use crate::rng::Rng;

/// Crews that are none, some of which are one in their low bits.
pub const UNKNOWN: [u32; 9] = [0, 3, 4, 255, 257, 65_536, 65_537, 0x8000_0002, u32::MAX];

/// Chambers that are none, some of which are one in their low bits, or would make the other crew's word.
pub const NO_CHAMBER: [u32; 8] = [1_000, 1_001, 1_023, 65_535, 65_536, 65_543, 0x8000_0000, u32::MAX];

/// So many chambers, each once, in no order.
pub fn chambers(rng: &mut Rng, count: usize) -> Vec<u32> {
    let mut all: Vec<u32> = (0..1_000).collect();
    (0..count).map(|_| all.swap_remove(rng.below(all.len() as u64) as usize)).collect()
}

/// A table with so many pins of each crew in any places. It is good up to 32 of each.
pub fn table(rng: &mut Rng, one: usize, two: usize) -> Vec<u32> {
    let pins: Vec<u32> = [(1, one), (2, two)]
        .iter()
        .flat_map(|&(crew, count)| chambers(rng, count).into_iter().map(move |chamber| pin(crew, chamber)))
        .collect();
    let mut places: Vec<usize> = (0..64).collect();
    let mut table = vec![0; 64];
    for word in pins {
        table[places.swap_remove(rng.below(places.len() as u64) as usize)] = word;
    }
    table
}

/// A good table with any number of pins.
pub fn any(rng: &mut Rng) -> Vec<u32> {
    let mut count = || if rng.percent(25) { rng.pick(&[0, 31, 32]) } else { rng.below(33) as usize };
    let (one, two) = (count(), count());
    table(rng, one, two)
}

/// A word that no table has.
pub fn bad_word(rng: &mut Rng) -> u32 {
    match rng.below(4) {
        // crew 0 with a chamber
        0 => rng.between(1, 65_535) as u32,
        // a crew's chamber that is none
        1 => pin(rng.between(1, 2) as u32, rng.pick(&[1_000, 1_001, 1_023, 1_024, 32_768, 65_535])),
        // an unknown crew's
        2 => pin(rng.pick(&[3, 4, 5, 257, 258, 32_769, 65_535]), rng.below(1_000) as u32),
        _ => rng.next() as u32 | 4 << 16,
    }
}

/// A good table with one word spoilt: a bad word, or a pin that stands there already.
pub fn spoilt(rng: &mut Rng, table: &[u32]) -> Vec<u32> {
    let mut table = table.to_vec();
    let pins: Vec<u32> = table.iter().copied().filter(|&word| word != 0).collect();
    let place = rng.below(64) as usize;
    let twin = if pins.is_empty() { 0 } else { rng.pick(&pins) };
    table[place] = if twin != 0 && table[place] != twin && rng.percent(40) { twin } else { bad_word(rng) };
    assert!(!model::faults(&table).is_empty());
    table
}

/// The same table with another length: cut, or with words behind it.
pub fn cut(rng: &mut Rng, table: &[u32]) -> Vec<u32> {
    let mut table = table.to_vec();
    let length = rng.pick(&[0, 1, 32, 63, 63, 65, 65, 128]);
    table.resize(length, 0);
    table
}

/// A list to fill: 32 random words.
pub fn found(rng: &mut Rng) -> Vec<u32> {
    (0..32).map(|_| rng.next() as u32).collect()
}
