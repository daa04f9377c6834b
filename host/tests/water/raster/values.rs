//! What is a count and what is a decimal, at each place where one must be.

use super::{number_with, read, with, COLUMNS, FIRST, GROUND, NO_DATA, READ, ROWS, SIDE, SOUTH, WEST};

/// Words that are decimals nowhere.
const WRONG: &[&str] = &[
    "-",
    "+",
    ".",
    "-.",
    "+5",
    "+0",
    "--5",
    "-+5",
    "+-5",
    "5-",
    "5+",
    "-5-",
    "5-5",
    ".5",
    "-.5",
    "5.",
    "-5.",
    "0.",
    ".0",
    "5..5",
    "5.5.",
    "5.5.5",
    ".5.5",
    "5.-5",
    "5.+5",
    "5,5",
    "5,000",
    "5_000",
    "5'000",
    "1e1",
    "1E1",
    "1e0",
    "1.5e0",
    "1.5E+00",
    "1e-2",
    "5e",
    "e5",
    "1d0",
    "0x5",
    "5f",
    "5m",
    "5%",
    "inf",
    "-inf",
    "nan",
    "NaN",
    "-9999*",
    "\u{665}",
    "5\u{665}",
    "\u{bd}",
    "\u{2212}5",
    "\u{ff15}",
    "five",
    "null",
    "*",
    "N/A",
    "#",
    "5#",
    "(5)",
    "$5",
    "0-0",
];

/// Words that are decimals, of every length.
const RIGHT: &[&str] = &[
    "0",
    "-0",
    "00",
    "-00.00",
    "5",
    "-5",
    "5.5",
    "-5.5",
    "0.000001",
    "000000000005",
    "-000000000005.500000",
    "999999999999",
    "-999999999999",
    "999999999999.999999",
    "-999999999999.999999",
    "000000000000.000000",
];

/// Too many digits: 13 before a point, or 7 behind it, whatever they are.
const TOO_LONG: &[&str] = &[
    "0000000000000",
    "0000000000005",
    "-0000000000005",
    "1000000000000",
    "9999999999999",
    "0000000000000.5",
    "1000000000000.000000",
    "5.0000000",
    "0.0000000",
    "-0.0000000",
    "5.0000001",
    "5.0000005",
    "5.1234567",
    "0.00000000",
    "00000000000000000000000005",
    "5.00000000000000000000",
];

/// The numbers that stand before 2^64 and behind it, and that a narrow machine word would take for a small one.
const FAR: &[&str] = &[
    "18446744073709551615",
    "18446744073709551616",
    "18446744073709551621",
    "340282366920938463463374607431768211461",
    "4294967301000000",
    "-18446744073709551611",
    "99999999999999999999",
    "18446744073709.551621",
];

#[test]
fn what_is_no_decimal() {
    for place in [WEST, SOUTH, SIDE, NO_DATA, FIRST, FIRST + 3, FIRST + 5] {
        for word in WRONG.iter().chain(TOO_LONG).chain(FAR) {
            assert_eq!(number_with(place, word), 10, "{word} at {place}");
        }
    }
}

/// The corner may be any decimal; it changes nothing.
#[test]
fn the_corner_is_dropped() {
    for &word in RIGHT {
        assert_eq!(read(&with(&[(WEST, word), (SOUTH, word)]), 6), (READ, GROUND.to_vec()), "{word}");
    }
}

/// A no-data value that does not occur may be any decimal too.
#[test]
fn a_no_data_value_that_does_not_occur() {
    for &word in RIGHT {
        // 0 occurs, and 5 does not
        let zero = word.bytes().all(|byte| b"-0.".contains(&byte));
        assert_eq!(number_with(NO_DATA, word), if zero { 3 } else { 0 }, "{word}");
    }
}

/// As a value or as cellsize all of them are decimals, in range or not.
#[test]
fn every_decimal_is_a_value() {
    for &word in RIGHT {
        let far = word.contains("999999999999");
        assert_eq!(number_with(FIRST, word), if far { 3 } else { 0 }, "{word}");
        let side = matches!(word, "5" | "5.5" | "000000000005");
        assert_eq!(number_with(SIDE, word), if side { 0 } else { 1 }, "{word}");
    }
}

/// 1 to 12 digits before the point and 1 to 6 behind it, each number of them, with a minus and without.
#[test]
fn every_number_of_digits() {
    for whole in 0..=14 {
        for part in 0..=8 {
            for minus in ["", "-"] {
                // noughts, with a 7 as the last digit before the point and a 3 as the last behind it
                let before = if whole == 0 { minus.to_string() } else { format!("{minus}{}7", "0".repeat(whole - 1)) };
                let word = if part == 0 { before } else { format!("{before}.{}3", "0".repeat(part - 1)) };
                if word.is_empty() {
                    continue;
                }
                let right = (1..=12).contains(&whole) && part <= 6;
                assert_eq!(number_with(FIRST, &word), if right { 0 } else { 10 }, "{word}");
                assert_eq!(number_with(WEST, &word), if right { 0 } else { 10 }, "{word}");
            }
        }
    }
}

#[test]
fn what_is_a_count() {
    for (place, digit) in [(COLUMNS, "3"), (ROWS, "2")] {
        for zeros in 0..16 {
            let word = "0".repeat(zeros) + digit;
            assert_eq!(number_with(place, &word), if zeros < 12 { 0 } else { 10 }, "{word}");
        }
        let odd = [
            "-",
            "+",
            "-{}",
            "+{}",
            "{}.",
            "{}.0",
            "{}.000000",
            ".{}",
            "{}e0",
            "{}E0",
            "0x{}",
            "{}-",
            "{}+",
            "{},",
            "{}f",
            "{}u",
        ];
        for word in odd.map(|odd| odd.replace("{}", digit)) {
            assert_eq!(number_with(place, &word), 10, "{word}");
        }
        for word in WRONG.iter().chain(TOO_LONG).chain(FAR) {
            assert_eq!(number_with(place, word), 10, "{word}");
        }
        for word in ["-0", "0.0", "-0.0", "5.5"] {
            assert_eq!(number_with(place, word), 10, "{word}");
        }
    }
}
