//! Depth texts: every boundary with a scratch of every length, and random heights; the rest of the scratch is looked at too.

use crate::library;
use crate::rng::Rng;
use crate::trials::{single, trials};

/// One text in a scratch of this length, filled with bytes that no text has.
fn text(rng: &mut Rng, height: i32, length: usize) -> Vec<u8> {
    let mut scratch: Vec<u8> = (0..length).map(|_| 128 + rng.below(128) as u8).collect();
    let written = library::depth_text(rng, height, &mut scratch);
    scratch.truncate(written);
    scratch
}

#[test]
fn every_boundary_in_every_length() {
    let rng = &mut Rng::new(1);
    let mut heights = vec![i32::MIN, -50_000_000, -10_000, -1, 0, 1, 2, 9_998, 9_999, 10_000, 10_001];
    // where the rounding turns, and where a digit is added
    for whole in [1, 2, 9, 10, 11, 99, 100, 101, 999, 1_000, 1_001, 4_999, 5_000] {
        for beside in [-5_001, -5_000, -4_999, -1, 0, 1, 4_999, 5_000, 5_001] {
            heights.push(whole * 10_000 + beside);
        }
    }
    heights.extend([49_999_999, 50_000_000, 50_000_001, 50_005_000, i32::MAX - 4_999, i32::MAX]);
    for &height in &heights {
        let whole = text(rng, height, 10);
        assert_eq!(whole.is_empty(), !(0..=50_000_000).contains(&height), "{height}");
        for length in 0..=10 {
            let written = text(rng, height, length);
            if length < whole.len() {
                assert_eq!(written, b"", "{height} in {length} bytes");
            } else {
                assert_eq!(written, whole, "{height} in {length} bytes");
            }
        }
    }
}

#[test]
fn random_heights() {
    let mut written = 0u64;
    trials("text", 25_000, |rng| {
        let height = match rng.below(8) {
            0 => rng.next() as i32,
            1 => -(rng.scaled(1, 50_000_000) as i32),
            2 => rng.below(5_001) as i32 * 10_000 + rng.between(-5_001, -4_999) as i32,
            _ => rng.scaled(1, 50_100_000) as i32,
        };
        let length = rng.pick(&[0, 3, 4, 5, 6, 7, 7, 8, 20]);
        written += u64::from(!text(rng, height, length).is_empty());
    });
    println!("text: {written} texts were written");
    assert!(single() || written >= 5_000);
}

/// Seven bytes are always enough, and the longest text needs them all.
#[test]
fn seven_bytes() {
    let rng = &mut Rng::new(2);
    for height in (0..=50_000_000).step_by(9_973).chain([50_000_000]) {
        assert!(!text(rng, height, 7).is_empty());
    }
    assert_eq!(text(rng, 50_000_000, 7), b"5000 cm");
    assert_eq!(text(rng, 50_000_000, 6), b"");
}
