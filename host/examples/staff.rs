//! Readings of a gauge staff as they are typed, the kept height of each and its depth text. Run from host/:
//!
//!     cargo run --release --example staff [READING..]
//!
//! A reading is metres or feet, `1.5m` or `4.9ft`, or `-` where nothing was read.

use water::{calls, Reading};

/// What a word says; none if it says nothing that is known.
fn typed(word: &str) -> Option<Reading> {
    if word == "-" {
        return Some(Reading::Nothing);
    }
    let metres = || word.strip_suffix('m')?.parse().ok().map(Reading::Metres);
    let feet = || word.strip_suffix("ft")?.parse().ok().map(Reading::Feet);
    metres().or_else(feet)
}

fn told(word: &str) -> String {
    let reading = match typed(word) {
        Some(reading) => reading,
        None => return "neither so many m or ft nor -".to_string(),
    };
    match calls::staff(reading) {
        Ok(Some(height)) => {
            let mut scratch = [0; 7];
            format!("{height} µm, {}", calls::depth_text(height, &mut scratch).expect("a kept height has a text"))
        }
        Ok(None) => "no height".to_string(),
        Err(refusal) => format!("refused: {refusal}"),
    }
}

fn main() {
    let mut words: Vec<String> = std::env::args().skip(1).collect();
    if words.is_empty() {
        words = ["1.5m", "4.9ft", "-", "0.004m", "0.0000005m", "0ft", "-0.1m", "50m", "165ft"].map(String::from).to_vec();
    }
    for word in words {
        println!("{word}: {}", told(&word));
    }
}

#[test]
fn readings_are_told() {
    assert_eq!(told("1.5m"), "1500000 µm, 150 cm");
    assert_eq!(told("4.9ft"), "1493520 µm, 149 cm");
    assert_eq!(told("0.004m"), "4000 µm, <1 cm");
    assert_eq!(told("-0ft"), "0 µm, dry");
    assert_eq!(told("-"), "no height");
    for refused in ["-0.1m", "165ft", "infm", "NaNft"] {
        assert!(told(refused).starts_with("refused: ") && told(refused).ends_with("(3)"), "{refused}");
    }
    for unknown in ["", "m", "ft", "1.5", "1.5 yd", "1,5m", "--"] {
        assert_eq!(typed(unknown), None, "{unknown}");
    }
}
