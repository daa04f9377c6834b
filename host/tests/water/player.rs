//! The sheet player's binary against what the model says it prints.
//!
//! `WATER_PLAYER` names the binary (../target/bin/sheet_player otherwise); `WATER_RUNNER` names a program that runs it, where the
//! machine cannot by itself.

use crate::model;
use crate::numbers::first_sheet;
use crate::rng::Rng;
use crate::trials::{single, trials};
use crate::wild::{self, Wild};
use std::io::Write;
use std::path::{Path, PathBuf};
use std::process::{Command, Stdio};
use water::raw::Card;

fn player() -> Command {
    let binary = match std::env::var_os("WATER_PLAYER") {
        Some(path) => PathBuf::from(path),
        None => Path::new(env!("CARGO_MANIFEST_DIR")).join("../target/bin/sheet_player"),
    };
    assert!(
        binary.is_file(),
        "{} is not there: `./play --make` at the repository's root makes it, or set WATER_PLAYER",
        binary.display()
    );
    match std::env::var_os("WATER_RUNNER") {
        None => Command::new(binary),
        Some(runner) => {
            let mut command = Command::new(runner);
            command.arg(binary);
            command
        }
    }
}

/// What the player prints; it must end well and say nothing else.
fn print_of(input: &[u8]) -> Vec<u8> {
    let mut child =
        player().stdin(Stdio::piped()).stdout(Stdio::piped()).stderr(Stdio::piped()).spawn().expect("the player starts");
    // a player that has seen enough may stop reading before the end
    let _ = child.stdin.take().unwrap().write_all(input);
    let output = child.wait_with_output().unwrap();
    assert!(output.status.success(), "the player ended with {}", output.status);
    assert_eq!(output.stderr, b"", "the player says nothing beside its answer");
    output.stdout
}

fn assert_plays(input: &[u8]) -> Vec<u8> {
    let (print, expected) = (print_of(input), model::play(input));
    if print != expected {
        panic!("printed {:?}, and not {:?}", String::from_utf8_lossy(&print), String::from_utf8_lossy(&expected));
    }
    print
}

/// The sheet of a site, by the model, which other tests hold to the library's.
fn sheet_of(site: &Wild) -> Vec<u8> {
    let mut bytes = vec![0; model::sheet_size(&site.card)];
    assert_eq!(model::write_sheet(site.card, &site.ground, &site.state, &mut bytes).number, 0);
    bytes
}

fn card(columns: u32, rows: u32, steps: u32) -> Card {
    Card { columns, rows, dx: 1_000_000, dy: 1_000_000, dt: 20, steps }
}

/// A pond with a column of water in its south-west corner.
fn pond(card: Card) -> Wild {
    let mut site = Wild::empty(card);
    let cells = site.ground.len();
    site.state[..cells].fill(1_000_000);
    site.state[0] = 1_500_000;
    site
}

#[test]
fn the_document_s_own_sheet() {
    assert_eq!(print_of(&first_sheet()), b"steps 2 reason 0 top 2000000\n180 cm, 120 cm\n");
}

#[test]
fn good_sheets() {
    for (columns, rows, steps) in [(1, 1, 0), (1, 1, 10_000), (1, 32, 5), (32, 1, 5), (3, 2, 50), (32, 32, 20), (31, 17, 7)] {
        let print = assert_plays(&sheet_of(&pond(card(columns, rows, steps))));
        assert!(print.starts_with(format!("steps {steps} reason 0 top ").as_bytes()));
        assert_eq!(print.iter().filter(|&&byte| byte == b'\n').count(), 1 + rows as usize);
    }
}

/// Rows are printed south first: a site whose rows all differ.
#[test]
fn south_comes_first() {
    let mut site = Wild::empty(card(2, 3, 0));
    site.state[..6].copy_from_slice(&[0, 1, 10_000, 20_000, 9_999, 50_000_000]);
    assert_eq!(assert_plays(&sheet_of(&site)), b"steps 0 reason 0 top 50000000\ndry, <1 cm\n1 cm, 2 cm\n<1 cm, 5000 cm\n");
}

#[test]
fn runs_that_are_stopped() {
    // 4 and 5 and 7, each after the steps that the model says
    let mut four = Wild::empty(Card { dt: 100, ..card(2, 1, 100) });
    four.ground[0] = 4_000_000;
    four.state[..2].fill(1_000_000);
    let mut five = Wild::empty(Card { dt: 100, ..card(2, 1, 100) });
    five.ground[1] = -30_000_000;
    five.state[..2].copy_from_slice(&[20_000_000, 49_500_000]);
    let mut seven = Wild::empty(Card { dx: 20_000_000, dt: 1_000, ..card(2, 1, 3) });
    seven.ground.copy_from_slice(&[50_000_000, -50_000_000]);
    seven.state[..2].fill(1_000);
    for (site, reason) in [(four, 4), (five, 5), (seven, 7)] {
        let print = String::from_utf8(assert_plays(&sheet_of(&site))).unwrap();
        assert_eq!(print.split(' ').nth(3), Some(&*reason.to_string()), "{print}");
    }
}

#[test]
fn refusals() {
    assert_eq!(print_of(b""), b"refused 9\n");
    let good = first_sheet();
    for length in [0, 1, 4, 5, 7, 18, 19, 62] {
        assert_eq!(assert_plays(&good[..length]), b"refused 9\n");
    }
    let with = |place: usize, byte: u8| {
        let mut sheet = good.clone();
        sheet[place] = byte;
        String::from_utf8(assert_plays(&sheet)).unwrap()
    };
    assert_eq!(with(3, 62), "refused 9\n");
    assert_eq!(with(4, 2), "refused 9\n");
    assert_eq!(with(5, 0), "refused 1\n");
    assert_eq!(with(5, 129), "refused 1\n");
    assert_eq!(with(16, 0), "refused 1\n");
    assert_eq!(with(17, 255), "refused 1\n");
    // the lists are cut to the header's size, so that 2 speaks of the sheet's size alone
    assert_eq!(with(5, 3), "refused 2\n");
    assert_eq!(with(6, 128), "refused 2\n");
    assert_eq!(with(27, 255), "refused 3\n");
    assert_eq!(with(38, 1), "refused 3\n");
}

#[test]
fn as_much_as_it_reads() {
    // 32×32 is a sheet of 16,659 bytes exactly
    let sheet = sheet_of(&pond(card(32, 32, 1)));
    assert_eq!(sheet.len(), 16_659);
    assert!(assert_plays(&sheet).starts_with(b"steps 1 reason 0"));
    let longer = [&sheet[..], &[0]].concat();
    assert_eq!(assert_plays(&longer), b"refused 8\n");
    assert_eq!(assert_plays(&vec![0; 16_659]), b"refused 9\n");
    assert_eq!(assert_plays(&vec![0; 16_660]), b"refused 8\n");
    assert_eq!(assert_plays(&vec![1; 300_000]), b"refused 8\n");
}

#[test]
fn more_than_32_columns_or_rows() {
    for (columns, rows) in [(33, 31), (100, 9), (31, 33), (9, 100), (128, 1), (1, 128), (33, 1)] {
        let site = pond(card(columns, rows, 1));
        let mut sheet = sheet_of(&site);
        assert!(sheet.len() <= 16_659);
        assert_eq!(assert_plays(&sheet), b"refused 8\n");
        // the reader's own number comes first
        let last = sheet.len() - 1;
        sheet[last] = 1;
        assert_eq!(assert_plays(&sheet), b"refused 3\n");
    }
    // too long before too wide
    assert_eq!(assert_plays(&sheet_of(&pond(card(33, 33, 1)))), b"refused 8\n");
}

#[test]
fn random_sheets() {
    let (mut played, mut refused) = (0, 0);
    trials("player", 150, |rng| {
        let site = wild::good(rng);
        let mut sheet = sheet_of(&site);
        for _ in 0..rng.below(3) {
            let place = rng.below(sheet.len() as u64) as usize;
            sheet[place] ^= 1 << rng.below(8);
        }
        let print = assert_plays(&sheet);
        played += u32::from(print.starts_with(b"steps"));
        refused += u32::from(print.starts_with(b"refused"));
    });
    println!("player: {played} random sheets were played, {refused} were refused");
    assert!(single() || (played >= 20 && refused >= 20));
}

#[test]
fn random_bytes() {
    trials("player's bytes", 100, |rng: &mut Rng| {
        let length = rng.scaled(1, 20_000) as usize;
        let mut bytes: Vec<u8> = (0..length).map(|_| rng.next() as u8).collect();
        if length > 7 && rng.percent(60) {
            bytes[..4].copy_from_slice(&(length as u32).to_be_bytes());
            bytes[4..7].copy_from_slice(&[1, rng.below(40) as u8, rng.below(40) as u8]);
        }
        assert_plays(&bytes);
    });
}
