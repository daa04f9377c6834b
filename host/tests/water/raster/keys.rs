//! Keys: in any letter case, each at its place, each once.

use super::{number, number_with, read, shown, with, FIRST, GOOD, GROUND, NO_DATA, READ};

/// Where keys stand.
const KEYS: [usize; 6] = [0, 2, 4, 6, 8, 10];

#[test]
fn any_letter_case() {
    let cases: [fn(&str) -> String; 2] = [|key| key.to_ascii_lowercase(), |key| key.to_ascii_uppercase()];
    for case in cases {
        let text: Vec<String> = GOOD.iter().map(|word| case(word)).collect();
        assert_eq!(read(text.join("\n").as_bytes(), 6), (READ, GROUND.to_vec()));
    }
    // each letter by itself, among small ones and among capitals
    for key in KEYS {
        for letter in 0..GOOD[key].len() {
            let mut word = GOOD[key].to_ascii_lowercase();
            word[letter..=letter].make_ascii_uppercase();
            assert_eq!(number_with(key, &word), 0, "{word}");
            let mut word = GOOD[key].to_ascii_uppercase();
            word[letter..=letter].make_ascii_lowercase();
            assert_eq!(number_with(key, &word), 0, "{word}");
        }
    }
}

/// Each letter of each key as any other byte: only the other case of the same letter passes.
#[test]
fn no_other_letter() {
    for key in KEYS {
        let start = GOOD[..key].iter().map(|word| word.len() + 1).sum::<usize>();
        for letter in start..start + GOOD[key].len() {
            for byte in 0..=255 {
                let mut text = with(&[]);
                let same = text[letter].eq_ignore_ascii_case(&byte);
                text[letter] = byte;
                assert_eq!(number(&text), if same { 0 } else { 10 }, "{:?}", shown(&text));
            }
        }
    }
}

/// Shorter and longer keys, keys of other programs and keys joined with their numbers.
#[test]
fn other_words() {
    for key in KEYS {
        let right = GOOD[key];
        let wrong = [&right[1..], &right[..right.len() - 1], &format!("{right}s"), &format!("x{right}"), &format!("{right}:")];
        for word in wrong {
            assert_eq!(number_with(key, word), 10, "{word}");
        }
        for other in KEYS.iter().filter(|&&other| other != key) {
            assert_eq!(number_with(key, GOOD[*other]), 10, "{} in the place of {right}", GOOD[*other]);
        }
        assert_eq!(number_with(key, "0"), 10);
    }
    for (key, word) in [(4, "xllcenter"), (6, "yllcenter"), (8, "dx"), (10, "NODATA"), (10, "no_data"), (10, "nodata-value")] {
        assert_eq!(number_with(key, word), 10, "{word}");
    }
}

/// Each key but the last with its number left out, alone or with it, or said twice.
#[test]
fn missing_and_repeated() {
    for key in KEYS {
        let (before, pair, behind) = (&GOOD[..key], &GOOD[key..key + 2], &GOOD[key + 2..]);
        let without = [before, behind].concat().join(" ");
        assert_eq!(number(without.as_bytes()), if key + 1 == NO_DATA { 0 } else { 10 }, "{without}");
        let twice = [before, pair, pair, behind].concat().join(" ");
        assert_eq!(number(twice.as_bytes()), 10, "{twice}");
        let bare = [before, &pair[..1], behind].concat().join(" ");
        assert_eq!(number(bare.as_bytes()), 10, "{bare}");
        let unnamed = [before, &pair[1..], behind].concat().join(" ");
        assert_eq!(number(unnamed.as_bytes()), 10, "{unnamed}");
        // the number before its key
        let turned = [before, &[pair[1], pair[0]], behind].concat().join(" ");
        assert_eq!(number(turned.as_bytes()), 10, "{turned}");
    }
}

/// Any two keys exchanged with their numbers.
#[test]
fn out_of_order() {
    for (k, &one) in KEYS.iter().enumerate() {
        for &other in &KEYS[k + 1..] {
            let mut words = GOOD;
            words.swap(one, other);
            words.swap(one + 1, other + 1);
            assert_eq!(number(words.join(" ").as_bytes()), 10, "{words:?}");
            // and the keys alone
            let mut words = GOOD;
            words.swap(one, other);
            assert_eq!(number(words.join(" ").as_bytes()), 10, "{words:?}");
        }
    }
}

/// The no-data value stands right behind cellsize or nowhere.
#[test]
fn the_no_data_key_elsewhere() {
    let without = [&GOOD[..10], &GOOD[FIRST..]].concat();
    assert_eq!(read(without.join(" ").as_bytes(), 6), (READ, GROUND.to_vec()));
    for place in 0..=without.len() {
        let words = [&without[..place], &GOOD[10..FIRST], &without[place..]].concat();
        assert_eq!(number(words.join(" ").as_bytes()), if place == 10 { 0 } else { 10 }, "{words:?}");
    }
    // in the place of two values, or of one with its number left out, last of all too
    for place in FIRST..FIRST + 5 {
        assert_eq!(number(&with(&[(place, "NODATA_value"), (place + 1, "5")])), 10);
        assert_eq!(number_with(place + 1, "NODATA_value"), 10);
    }
    let bare = [&GOOD[..11], &[]].concat();
    assert_eq!(number(bare.join(" ").as_bytes()), 10);
    // no cells and no values: the key is looked for all the same
    assert_eq!(read(b"ncols 0 nrows 0 xllcorner 0 yllcorner 0 cellsize 1 NODATA_value", 0).0.number, 10);
    assert_eq!(read(b"ncols 0 nrows 0 xllcorner 0 yllcorner 0 cellsize 1 NODATA_value 7", 0).0.number, 1);
}
