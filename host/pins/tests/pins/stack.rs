//! How much stack each call takes: what `include/pins.h` names and no more, whatever the input.
//!
//! The numbers stand in the header's table alone; the page of the package must have the same. Each case is run twice: on a painted
//! stack, which shows how deep it went, and in a thread that has as much stack as is named and what a thread takes for itself.
//! `cargo test --release stack -- --nocapture` prints what each case took.

#[cfg(target_arch = "x86_64")]
#[path = "../../../tests/water/stack/painted.rs"]
mod painted;

use crate::model::pin;
use pins::{calls, Crew, PinTable, Refusal};
use std::thread;

/// What a thread has beside: the least that Linux gives one, which holds what Rust does before and after the call.
const THREAD: usize = 16_384;

/// What each named number has to spare at least: another compiler may give the wrapper another frame.
#[cfg(target_arch = "x86_64")]
const SPARE: usize = 230;

const HEADER: &str = include_str!("../../../../include/pins.h");
const PACKAGE: &str = include_str!("../../src/lib.rs");

type Call = Box<dyn FnMut() -> Result<usize, Refusal> + Send>;

// The number in the one line of a page that begins with this name.
fn named(page: &str, name: &str) -> usize {
    let is_row =
        |line: &&str| line.trim_start_matches(|c| " */!|[`".contains(c)).split(|c| " `".contains(c)).next() == Some(name);
    let numbers =
        |line: &str| -> Vec<usize> { line.split([' ', '|']).filter_map(|word| word.replace(',', "").parse().ok()).collect() };
    let rows: Vec<Vec<usize>> = page.lines().filter(is_row).map(numbers).filter(|row| row.len() == 1).collect();
    assert_eq!(rows.len(), 1, "{name} has one row in the table of stack");
    rows[0][0]
}

// One case of a call that the header names.
fn holds(name: &str, case: &str, answer: Result<usize, Refusal>, make: impl Fn() -> Call) {
    within(name, case, named(HEADER, name), answer, make);
}

// What a case takes is printed and held to what is named, and it answers so, on its own stack and in a thread.
fn within(name: &str, case: &str, named: usize, answer: Result<usize, Refusal>, make: impl Fn() -> Call) {
    #[cfg(target_arch = "x86_64")]
    {
        let (answered, took) = painted::depth(&mut *make());
        println!("{name}, {case}: {took} bytes of stack, {named} are named");
        assert!(
            took + SPARE <= named,
            "{name}, {case} takes {took} bytes of stack, with {SPARE} to spare, and include/pins.h names {named}"
        );
        assert_eq!(answered, answer, "{name}, {case}");
    }
    let thread = thread::Builder::new().stack_size(named + THREAD).spawn(make()).unwrap();
    assert_eq!(thread.join().unwrap(), answer, "{name}, {case}");
}

fn add(table: &[u32], crew: u32, chamber: u32) -> Call {
    let mut table = table.to_vec();
    Box::new(move || calls::add(&mut table, crew, chamber).map(|()| 0))
}

fn remove(table: &[u32], crew: u32, chamber: u32) -> Call {
    let mut table = table.to_vec();
    Box::new(move || calls::remove(&mut table, crew, chamber).map(|()| 0))
}

fn list(table: &[u32], crew: u32, room: usize) -> Call {
    let (table, mut found) = (table.to_vec(), vec![0; room]);
    Box::new(move || calls::list(&table, crew, &mut found))
}

/// A good table with so many pins of each crew, none of them on chamber 500; the first of crew 2's is on chamber 999.
fn table(pins: usize) -> Vec<u32> {
    let mut table: Vec<u32> = (0..pins as u32).flat_map(|k| [pin(1, 7 * k), pin(2, 999 - 9 * k)]).collect();
    table.resize(64, 0);
    table
}

fn bad() -> Vec<u32> {
    let mut table = table(31);
    table[63] = 5;
    table
}

#[test]
fn adds_take_what_is_named() {
    let holds = |case: &str, answer, make: &dyn Fn() -> Call| holds("pins_add", case, answer, make);
    holds("an empty table", Ok(0), &|| add(&table(0), 1, 500));
    holds("the last place", Ok(0), &|| add(&table(32)[..63].iter().copied().chain([0]).collect::<Vec<_>>(), 2, 500));
    holds("no words", Err(Refusal::Length), &|| add(&[], 1, 500));
    holds("63 words", Err(Refusal::Length), &|| add(&table(31)[..63], 1, 500));
    holds("a bad table", Err(Refusal::Table), &|| add(&bad(), 1, 500));
    holds("an unknown crew", Err(Refusal::Crew), &|| add(&table(32), 3, 500));
    holds("no chamber", Err(Refusal::Chamber), &|| add(&table(32), 1, u32::MAX));
    holds("pinned already", Err(Refusal::Pinned), &|| add(&table(32), 2, 999));
    holds("a full crew", Err(Refusal::Full), &|| add(&table(32), 2, 500));
}

#[test]
fn removes_take_what_is_named() {
    let holds = |case: &str, answer, make: &dyn Fn() -> Call| holds("pins_remove", case, answer, make);
    holds("a full table", Ok(0), &|| remove(&table(32), 2, 999));
    holds("no words", Err(Refusal::Length), &|| remove(&[], 1, 500));
    holds("63 words", Err(Refusal::Length), &|| remove(&table(31)[..63], 1, 500));
    holds("a bad table", Err(Refusal::Table), &|| remove(&bad(), 1, 500));
    holds("an unknown crew", Err(Refusal::Crew), &|| remove(&table(32), 3, 500));
    holds("no chamber", Err(Refusal::Chamber), &|| remove(&table(32), 1, u32::MAX));
    holds("not pinned", Err(Refusal::NotPinned), &|| remove(&table(32), 2, 500));
}

#[test]
fn listings_take_what_is_named() {
    let holds = |case: &str, answer, make: &dyn Fn() -> Call| holds("pins_list", case, answer, make);
    holds("a full table", Ok(32), &|| list(&table(32), 2, 32));
    holds("an empty table", Ok(0), &|| list(&table(0), 1, 32));
    holds("no words", Err(Refusal::Length), &|| list(&[], 1, 0));
    holds("a list of 31", Err(Refusal::Length), &|| list(&table(32), 1, 31));
    holds("a bad table", Err(Refusal::Table), &|| list(&bad(), 1, 32));
    holds("an unknown crew", Err(Refusal::Crew), &|| list(&table(32), 3, 32));
}

/// A table that owns its words takes what its call takes, and 1,000 more for the list of a crew's pins, as the package's page says.
#[test]
fn a_pin_table_takes_what_its_call_takes() {
    let words: Vec<&str> = PACKAGE.split_whitespace().filter(|word| *word != "//!").collect();
    let sentence = "A [`PinTable`] takes as much as the calls that it makes, and 1,000 for the list of a crew's pins.";
    assert!(words.join(" ").contains(sentence), "the page says: {sentence}");
    let owned = || PinTable::from_words(table(32).try_into().unwrap()).unwrap();
    let holds = |case: &str, call: &str, answer, make: &dyn Fn() -> Call| {
        within("a table", case, named(HEADER, call) + 1_000, answer, make);
    };
    let bad: [u32; 64] = bad().try_into().unwrap();
    holds("from words", "pins_list", Err(Refusal::Table), &|| Box::new(move || PinTable::from_words(bad).map(|_| 0)));
    holds("pins", "pins_list", Ok(32), &|| {
        let table = owned();
        Box::new(move || Ok(table.pins(Crew::Two).len()))
    });
    holds("contains", "pins_list", Ok(1), &|| {
        let table = owned();
        Box::new(move || Ok(usize::from(table.contains(Crew::Two, 999))))
    });
    holds("add", "pins_add", Err(Refusal::Full), &|| {
        let mut table = owned();
        Box::new(move || table.add(Crew::Two, 500).map(|()| 0))
    });
    holds("remove", "pins_remove", Ok(0), &|| {
        let mut table = owned();
        Box::new(move || table.remove(Crew::Two, 999).map(|()| 0))
    });
}

/// Tables of every sort take no more.
#[cfg(target_arch = "x86_64")]
#[test]
fn any_table_takes_what_is_named() {
    use crate::{rng::Rng, tables};
    let rng = &mut Rng::new(1);
    let mut most = [0; 3];
    for _ in 0..300 {
        let good = tables::any(rng);
        let table = if rng.percent(30) { tables::spoilt(rng, &good) } else { good };
        let (crew, chamber) = (rng.between(1, 2) as u32, rng.below(1_000) as u32);
        let made = [add(&table, crew, chamber), remove(&table, crew, chamber), list(&table, crew, 32)];
        for ((most, mut call), name) in most.iter_mut().zip(made).zip(["pins_add", "pins_remove", "pins_list"]) {
            *most = painted::depth(&mut *call).1.max(*most);
            assert!(*most + SPARE <= named(HEADER, name), "{name} takes {most} bytes of stack");
        }
    }
    println!("any table: at most {most:?} bytes of stack");
}

/// The page of the package says the same.
#[test]
fn both_pages_name_the_same_stack() {
    for call in ["add", "remove", "list"] {
        assert_eq!(named(PACKAGE, &format!("calls::{call}")), named(HEADER, &format!("pins_{call}")), "{call}");
    }
}
