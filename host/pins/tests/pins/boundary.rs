//! Each refusal on both sides of its boundary.

use crate::library::{self, numbers};
use crate::model::pin;
use crate::rng::Rng;
use crate::tables::{self, NO_CHAMBER, UNKNOWN};
use pins::raw::{self, Listing};
use pins::{calls, Refusal};

const GOOD: [u32; 3] = [0, 13, 0];
const BAD: [u32; 3] = [3, 3, 3];

/// Every length but 64 is refused, with and without pins, by all three calls; each list stands at either end of its pages.
#[test]
fn lengths_of_a_table() {
    let rng = &mut Rng::new(1);
    for length in (0..=130).chain([255, 256, 1_000, 4_096, 65_536 + 64]) {
        for pins in [0, 3, 32] {
            let mut table = tables::table(rng, pins, pins);
            table.resize(length, 0);
            let room = if pins < 32 { 0 } else { 14 };
            let free = (0..1_000).find(|chamber| !table.contains(&pin(1, *chamber))).unwrap();
            for _ in 0..4 {
                let expected = if length == 64 { [room, 13, 0] } else { [2, 2, 2] };
                assert_eq!(numbers(rng, &table, 1, free), expected, "{length} words");
            }
        }
    }
}

/// And every length of a listing's list but 32, beside every table's.
#[test]
fn lengths_of_a_list() {
    let rng = &mut Rng::new(2);
    let full = tables::table(rng, 32, 7);
    for table_length in [0, 32, 63, 64, 65] {
        let mut table = full.clone();
        table.resize(table_length, 0);
        for found_length in (0..=66).chain([128, 256, 65_536 + 32]) {
            for crew in [1, 2] {
                let right = table_length == 64 && found_length == 32;
                let expected = if right {
                    Listing { number: 0, count: [32, 7][crew as usize - 1] }
                } else {
                    Listing { number: 2, count: 0 }
                };
                let mut found: Vec<u32> = (0..found_length).map(|_| rng.next() as u32).collect();
                assert_eq!(library::list(rng, &table, crew, &mut found), expected, "{table_length} and {found_length} words");
            }
        }
    }
}

/// A length of 0 allows any pointer, and none at all.
#[test]
fn no_pointers() {
    let refused = Listing { number: 2, count: 0 };
    let (none, table, mut found) = (std::ptr::null_mut(), [0; 64], [7; 32]);
    // Safety: a pointer of length 0 is not followed, and the others come with their own lists' lengths.
    unsafe {
        assert_eq!(raw::pins_add(none, 0, 1, 5), 2);
        assert_eq!(raw::pins_remove(none, 0, 1, 5), 2);
        assert_eq!(raw::pins_list(none, 0, 1, none, 0), refused);
        assert_eq!(raw::pins_list(table.as_ptr(), 64, 1, none, 0), refused);
        assert_eq!(raw::pins_list(none, 0, 1, found.as_mut_ptr(), 32), refused);
        // any other pointer too
        let odd = 1usize as *mut u32;
        assert_eq!((raw::pins_add(odd, 0, 1, 5), raw::pins_remove(odd, 0, 1, 5)), (2, 2));
        assert_eq!(raw::pins_list(odd, 0, 1, odd, 0), refused);
    }
    assert_eq!(found, [7; 32]);
}

/// Crews 1 and 2, and none that is one of them by its low or its high bits, on tables that have none, some or all of a crew's pins.
#[test]
fn crews() {
    let rng = &mut Rng::new(3);
    for (one, two) in [(0, 0), (5, 0), (0, 5), (32, 32), (32, 0)] {
        let table = tables::table(rng, one, two);
        let alike = (2..32).flat_map(|bit| [0, 1, 2].map(|crew| crew | 1 << bit));
        for crew in UNKNOWN.into_iter().chain(0..9).chain(alike).chain([i32::MAX as u32, u32::MAX - 1]) {
            for chamber in [0, 5, 999].into_iter().chain(table.iter().map(|word| word % 65_536)) {
                let expected = [11, 11, 11];
                let known = crew == 1 || crew == 2;
                let given = numbers(rng, &table, crew, chamber);
                assert!(known != (given == expected), "crew {crew}, chamber {chamber}: {given:?}");
            }
        }
    }
}

/// 999 is a chamber, 1,000 is none, and none is one by its low bits; a chamber so great that it would make the other crew's word, or one that
/// stands there, is none either.
#[test]
fn chambers() {
    let rng = &mut Rng::new(4);
    for (one, two) in [(0, 0), (7, 7), (32, 32)] {
        let table = tables::table(rng, one, two);
        let alike = (10..32).flat_map(|bit| [0, 7, 999].map(|chamber| chamber | 1 << bit));
        let of_words = table.iter().flat_map(|word| [*word, word.wrapping_sub(65_536), word.wrapping_sub(131_072)]);
        let any: Vec<u32> =
            NO_CHAMBER.into_iter().chain(0..1_100).chain(alike).chain(of_words).chain([65_534, u32::MAX - 1]).collect();
        for (crew, chamber) in any.iter().flat_map(|&chamber| [(1, chamber), (2, chamber)]) {
            let given = numbers(rng, &table, crew, chamber);
            assert_eq!(given[..2] == [12, 12], chamber >= 1_000, "crew {crew}, chamber {chamber}: {given:?}");
            assert_eq!(given[2], 0, "a listing asks for no chamber");
        }
    }
}

/// Words at every edge, in every place: alone, and beside as many pins as there can be.
#[test]
fn words_at_every_edge_in_every_place() {
    let rng = &mut Rng::new(5);
    let good = [0, 65_536, 65_537, 65_536 + 998, 65_536 + 999, 131_072, 131_073, 131_072 + 998, 131_072 + 999];
    let near_0 = [1, 2, 3, 5, 999, 1_000, 32_768, 65_534, 65_535];
    let crew_1 = [65_536 + 1_000, 65_536 + 1_001, 65_536 + 1_024, 65_536 + 32_768, 131_070, 131_071];
    let crew_2 = [131_072 + 1_000, 131_072 + 1_001, 131_072 + 32_768, 196_607];
    let above =
        [196_608, 196_609, 196_608 + 999, 262_144, 257 << 16, 258 << 16 | 5, 0x8000_0000, 0x8001_0000, u32::MAX - 1, u32::MAX];
    for place in 0..64 {
        for word in good {
            let mut table = vec![0; 64];
            table[place] = word;
            assert_eq!(numbers(rng, &table, 1, 500), GOOD, "{word} in place {place}");
        }
        for word in near_0.iter().chain(&crew_1).chain(&crew_2).chain(&above) {
            let mut table = vec![0; 64];
            table[place] = *word;
            assert_eq!(numbers(rng, &table, 1, 500), BAD, "{word} in place {place}");
            let mut table = tables::table(rng, 32, 32);
            table[place] = *word;
            for crew in [1, 2] {
                assert_eq!(numbers(rng, &table, crew, 500), BAD, "{word} in place {place}");
            }
        }
    }
}

/// Every word up to past crew 3, and every crew's first and last words behind that.
#[test]
fn every_word() {
    let (mut table, mut good) = ([0; 64], 0);
    let words = (0..5u32 << 16).chain((5..=0xffff).flat_map(|crew| [crew << 16, crew << 16 | 999, crew << 16 | 0xffff]));
    for word in words {
        let place = word as usize % 64;
        table[place] = word;
        let (crew, chamber) = (word / 65_536, word % 65_536);
        let fits = word == 0 || (crew == 1 || crew == 2) && chamber < 1_000;
        for asked in [1, 2] {
            let expected = if fits { Ok(usize::from(crew == asked)) } else { Err(Refusal::Table) };
            assert_eq!(calls::list(&table, asked, &mut [0; 32]), expected, "{word} in place {place}");
        }
        good += u32::from(fits);
        table[place] = 0;
    }
    assert_eq!(good, 2_001);
}

/// The same pin in every two places; the same chamber of both crews is no such thing.
#[test]
fn a_pin_twice_in_every_two_places() {
    let rng = &mut Rng::new(6);
    for first in 0..64 {
        for second in first + 1..64 {
            for (crew, other, chamber) in [(1, 2, 0), (2, 1, 999), (1, 2, 64), (2, 1, 0)] {
                let mut table = vec![0; 64];
                (table[first], table[second]) = (pin(crew, chamber), pin(crew, chamber));
                assert_eq!(numbers(rng, &table, other, 500), BAD, "places {first} and {second}");
                table[second] = pin(other, chamber);
                assert_eq!(numbers(rng, &table, crew, 500), GOOD, "places {first} and {second}");
            }
            // in a table that is otherwise full
            let mut table = tables::table(rng, 32, 32);
            table[second] = table[first];
            assert_eq!(numbers(rng, &table, 1, 500), BAD, "places {first} and {second}");
        }
    }
}

/// 32 pins of one crew are good and 33 are not, whoever asks, wherever they stand, and whatever the other crew has.
#[test]
fn how_many_pins() {
    let rng = &mut Rng::new(7);
    for count in 0..=64 {
        for others in [0, 1, 16, 31, 32].into_iter().filter(|others| count + others <= 64) {
            for crew in [1, 2] {
                let table = if crew == 1 { tables::table(rng, count, others) } else { tables::table(rng, others, count) };
                let free = (0..1_000).find(|&chamber| [1, 2].iter().all(|&any| !table.contains(&pin(any, chamber)))).unwrap();
                let number = |held: usize| if held < 32 { 0 } else { 14 };
                let (own, other) = if count > 32 { (BAD, BAD) } else { ([number(count), 13, 0], [number(others), 13, 0]) };
                assert_eq!(numbers(rng, &table, crew, free), own, "{count} and {others} pins");
                assert_eq!(numbers(rng, &table, 3 - crew, free), other, "{count} and {others} pins");
            }
        }
    }
}

/// 13 on both sides: each chamber that a crew has, and those beside it.
#[test]
fn pinned_or_not() {
    let rng = &mut Rng::new(8);
    for (one, two) in [(31, 32), (32, 31), (1, 1)] {
        let table = tables::table(rng, one, two);
        for (word, crew) in table.iter().filter(|&&word| word != 0).flat_map(|&word| [(word, 1), (word, 2)]) {
            for chamber in [word % 65_536, (word + 1) % 65_536, (word + 65_535) % 65_536] {
                let (own, full) = (table.contains(&(crew * 65_536 + chamber)), [one, two][crew as usize - 1] == 32);
                let given = numbers(rng, &table, crew, chamber);
                let expected = match (chamber < 1_000, own, full) {
                    (false, _, _) => [12, 12, 0],
                    (_, true, _) => [13, 0, 0],
                    (_, false, true) => [14, 13, 0],
                    (_, false, false) => [0, 13, 0],
                };
                assert_eq!(given, expected, "crew {crew}, chamber {chamber}");
            }
        }
    }
}
