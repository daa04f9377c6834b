//! How much stack each call takes: what `include/water.h` names and no more, whatever the input, on a small site, and where it is refused.
//!
//! The numbers stand in the header's table alone; the page of the package must have the same. Each case is run twice: on a painted
//! stack, which shows how deep it went, and in a thread that has as much stack as is named and what a thread takes for itself. Steps and
//! runs, and every other call on the largest site, are made in a thread of 640,000 bytes besides, thread and all (whole.rs).
//! `cargo test --release stack -- --nocapture` prints what each case took.

mod cases;
#[cfg(target_arch = "x86_64")]
mod painted;
mod whole;

use crate::wild::Wild;
use cases::Call;
use std::thread;
use water::{Reading, Refusal};

/// What a thread has beside: the least that Linux gives one, which holds what Rust does before and after the call.
const THREAD: usize = 16_384;

/// What each named number has to spare at least: another compiler may give the wrapper another frame. rustc 1.63's are 112 bytes longer
/// than 1.95's, with which the numbers were named so that they have 350 to spare.
#[cfg(target_arch = "x86_64")]
const SPARE: usize = 230;

/// A step or a run of a site with pumps.
type Made = fn(Wild, Vec<i32>) -> Call;

const STEPS: [(&str, Made); 2] = [("water_step", cases::step), ("water_step_textbook", cases::step_textbook)];

#[derive(Clone, Copy, Debug, PartialEq)]
struct Named {
    any: usize,
    small: usize,
    refused: usize,
}

const HEADER: &str = include_str!("../../../../include/water.h");
const PACKAGE: &str = include_str!("../../../src/lib.rs");

// The three numbers in the one line of a page that begins with this name.
fn named(page: &str, name: &str) -> Named {
    let is_row =
        |line: &&str| line.trim_start_matches(|c| " */!|[`".contains(c)).split(|c| " `".contains(c)).next() == Some(name);
    let numbers =
        |line: &str| -> Vec<usize> { line.split([' ', '|']).filter_map(|word| word.replace(',', "").parse().ok()).collect() };
    let rows: Vec<Vec<usize>> = page.lines().filter(is_row).map(numbers).filter(|row| row.len() == 3).collect();
    assert_eq!(rows.len(), 1, "{name} has one row in the table of stack");
    Named { any: rows[0][0], small: rows[0][1], refused: rows[0][2] }
}

fn header(name: &str) -> Named {
    named(HEADER, name)
}

// Asks both pages for a sentence below their table, however its lines are broken.
fn both_say(sentence: &str) {
    for page in [HEADER, PACKAGE] {
        let words: Vec<&str> = page.split_whitespace().filter(|word| !["*", "//!"].contains(word)).collect();
        assert!(words.join(" ").contains(sentence), "both pages say: {sentence}");
    }
}

// What a step takes without pumps; the table has it with pumps.
fn without_pumps(name: &str) -> Named {
    both_say("Without pumps a step by either engine takes 398,000, on a small site 27,000.");
    Named { any: 398_000, small: 27_000, ..header(name) }
}

// What a step takes where the state has at most 800 words: with pumps, and without.
fn step_of_800_words() -> (usize, usize) {
    both_say("Where the state has at most 800 words, as with 16 columns and 16 rows, it takes 12,000, without pumps 9,000.");
    (12_000, 9_000)
}

// What a case took is printed, and is to leave of what is named as much as there is to spare.
#[cfg(target_arch = "x86_64")]
fn within(case: &str, took: usize, named: usize) {
    println!("{case}: {took} bytes of stack, {named} are named");
    assert!(
        took + SPARE <= named,
        "{case} takes {took} bytes of stack, with {SPARE} to spare, and include/water.h names {named}"
    );
}

// One case: what it takes is printed and held to what is named, and it answers so, on its own stack and in a thread.
fn holds(case: &str, named: usize, answer: Result<(), Refusal>, make: impl Fn() -> Call) {
    #[cfg(target_arch = "x86_64")]
    {
        let (answered, took) = painted::depth(&mut *make());
        within(case, took, named);
        assert_eq!(answered, answer, "{case}");
    }
    let thread = thread::Builder::new().stack_size(named + THREAD).spawn(make()).unwrap();
    assert_eq!(thread.join().unwrap(), answer, "{case}");
}

// A call with 64 pumps, each of which acts.
fn pumped(call: Made, site: Wild) -> Call {
    let pumps = cases::pumps(&site, 128);
    call(site, pumps)
}

#[test]
fn steps_take_what_is_named() {
    let (of_800_words, _) = step_of_800_words();
    for (name, step) in STEPS {
        let named = header(name);
        let holds = |case: &str, named, answer, site: fn() -> Wild| {
            holds(&format!("{name}, 64 pumps, {case}"), named, answer, || pumped(step, site()))
        };
        holds("128×128", named.any, Ok(()), || cases::site(128));
        holds("128×128, refused with 4", named.any, Err(Refusal::StepLimit), || cases::too_fast(128));
        holds("128×128, refused with 5", named.any, Err(Refusal::TooHigh), || cases::full(128));
        holds("32×32", named.small, Ok(()), || cases::site(32));
        holds("16×16", of_800_words, Ok(()), || cases::site(16));
        holds("8×8", of_800_words, Ok(()), || cases::site(8));
        holds("8×8, refused with 5", of_800_words, Err(Refusal::TooHigh), || cases::full(8));
    }
}

#[test]
fn steps_without_pumps_take_what_is_named() {
    let (_, of_800_words) = step_of_800_words();
    for (name, step) in STEPS {
        let named = without_pumps(name);
        let holds = |case: &str, named, answer, site: fn() -> Wild| {
            holds(&format!("{name}, {case}"), named, answer, || step(site(), vec![]))
        };
        holds("128×128", named.any, Ok(()), || cases::site(128));
        holds("128×128, refused with 4", named.any, Err(Refusal::StepLimit), || cases::too_fast(128));
        holds("32×32", named.small, Ok(()), || cases::site(32));
        holds("16×16", of_800_words, Ok(()), || cases::site(16));
        holds("8×8", of_800_words, Ok(()), || cases::site(8));
        holds("an empty card", named.refused, Err(Refusal::Card), cases::nothing);
        holds("a bad card", named.refused, Err(Refusal::Card), || cases::no_time(128));
        holds("lists too short", named.refused, Err(Refusal::Length), || cases::short(128));
        holds("a bad value", named.refused, Err(Refusal::Value), || cases::bad(128));
    }
}

#[test]
fn run_takes_what_is_named() {
    let named = header("water_run");
    let holds = |case: &str, named, answer, site: fn() -> Wild| {
        holds(&format!("run, {case}"), named, answer, || cases::run(site(), vec![]))
    };
    holds("128×128", named.any, Ok(()), || cases::site(128));
    holds("128×128, stopped by 4", named.any, Err(Refusal::StepLimit), || cases::too_fast(128));
    holds("32×32", named.small, Ok(()), || cases::site(32));
    holds("8×8", named.small, Ok(()), || cases::site(8));
    holds("an empty card", named.refused, Err(Refusal::Card), cases::nothing);
    holds("a bad card", named.refused, Err(Refusal::Card), || cases::no_time(128));
    holds("lists too short", named.refused, Err(Refusal::Length), || cases::short(128));
    holds("a bad value", named.refused, Err(Refusal::Value), || cases::bad(128));
}

#[test]
fn run_takes_no_more_with_pumps() {
    both_say("A run takes no more with pumps than without.");
    let named = header("water_run");
    let holds = |case: &str, named, answer, site: fn() -> Wild| {
        holds(&format!("run, 64 pumps, {case}"), named, answer, || pumped(cases::run, site()))
    };
    holds("128×128", named.any, Ok(()), || cases::site(128));
    holds("128×128, stopped by 5", named.any, Err(Refusal::TooHigh), || cases::full(128));
    holds("32×32", named.small, Ok(()), || cases::site(32));
    holds("8×8", named.small, Ok(()), || cases::site(8));
}

/// Pumps that are refused with 1, 2 or 3 take no more than other refusals do.
#[test]
fn refused_pumps_take_what_is_named() {
    for (name, call) in STEPS.into_iter().chain([("water_run", cases::run as Made)]) {
        let named = header(name).refused;
        let holds = |case: &str, answer, words: usize, change: fn(&mut Vec<i32>)| {
            holds(&format!("{name}, {case}"), named, Err(answer), || {
                let site = cases::site(128);
                let mut pumps = cases::pumps(&site, words);
                change(&mut pumps);
                call(site, pumps)
            })
        };
        holds("65 pumps", Refusal::Card, 130, |_| ());
        holds("a word left over", Refusal::Length, 129, |_| ());
        holds("a cell that is not there", Refusal::Value, 128, |pumps| pumps[126] += 1);
        holds("an amount out of range", Refusal::Value, 128, |pumps| pumps[127] = 1_000_001);
    }
}

/// A site takes what its call takes, and 1,000 more for the list of its pumps, as the package's page says.
#[test]
fn a_site_takes_what_its_call_takes() {
    let (named, without, list) = (header("water_step"), without_pumps("water_step"), 1_000);
    let (of_800_words, of_800_words_without) = step_of_800_words();
    holds("a site's step, 128×128", without.any + list, Ok(()), || cases::site_step(128, 0));
    holds("a site's step, 32×32", without.small + list, Ok(()), || cases::site_step(32, 0));
    holds("a site's step, 8×8", of_800_words_without + list, Ok(()), || cases::site_step(8, 0));
    holds("a site's step, 128×128, 64 pumps", named.any + list, Ok(()), || cases::site_step(128, 64));
    holds("a site's step, 32×32, 64 pumps", named.small + list, Ok(()), || cases::site_step(32, 64));
    holds("a site's step, 8×8, 64 pumps", of_800_words + list, Ok(()), || cases::site_step(8, 64));
    holds("a site's step, 65 pumps", named.refused + list, Err(Refusal::Card), || cases::site_step(128, 65));
}

#[test]
fn read_sheet_takes_what_is_named() {
    let named = header("water_read_sheet");
    holds("read, 128×128", named.any, Ok(()), || cases::read(cases::site(128)));
    holds("read, 128×128, a bad value", named.refused, Err(Refusal::Value), || cases::read(cases::bad(128)));
    holds("read, 32×32", named.small, Ok(()), || cases::read(cases::site(32)));
    holds("read, 8×8", named.small, Ok(()), || cases::read(cases::site(8)));
    holds("read, no bytes and no lists", named.refused, Err(Refusal::Sheet), || cases::read(cases::nothing()));
    holds("read, a bad card", named.refused, Err(Refusal::Card), || cases::read(cases::no_time(128)));
    holds("read, lists too short", named.refused, Err(Refusal::Length), || cases::read(cases::short(128)));
}

#[test]
fn searches_take_what_is_named() {
    for (name, search) in [("water_search", cases::search as fn(_, _, _) -> Call), ("water_search_lists", cases::search_lists)] {
        let named = header(name);
        holds(name, named.any, Ok(()), || search(cases::site(128), 1_000, 1_000));
        holds(name, named.small, Ok(()), || search(cases::site(8), 1_000, 1_000));
        holds(name, named.small, Err(Refusal::Room { needed: 1_000 }), || search(cases::site(8), 1_000, 999));
        holds(name, named.refused, Err(Refusal::Card), || search(cases::nothing(), 0, 0));
        holds(name, named.refused, Err(Refusal::Card), || search(cases::no_time(8), 1_000, 1_000));
        holds(name, named.refused, Err(Refusal::Length), || search(cases::site(8), 1_001, 1_001));
        holds(name, named.refused, Err(Refusal::Value), || search(cases::bad(8), 1_000, 1_000));
    }
}

#[test]
fn write_sheet_takes_what_is_named() {
    let named = header("water_write_sheet");
    holds("write, 128×128", named.any, Ok(()), || cases::write(cases::site(128)));
    holds("write, 8×8", named.small, Ok(()), || cases::write(cases::site(8)));
    holds("write, no room", named.small, Err(Refusal::Room { needed: 1_107 }), || cases::write_into(cases::site(8), 1_106));
    holds("write, a bad card", named.refused, Err(Refusal::Card), || cases::write(cases::no_time(128)));
    holds("write, an empty card", named.refused, Err(Refusal::Card), || cases::write(cases::nothing()));
    holds("write, lists too short", named.refused, Err(Refusal::Length), || cases::write(cases::short(128)));
    holds("write, a bad value", named.refused, Err(Refusal::Value), || cases::write(cases::bad(128)));
}

#[test]
fn depth_text_takes_what_is_named() {
    let named = header("water_depth_text");
    holds("text, the longest", named.any, Ok(()), || cases::text(50_000_000));
    holds("text, dry", named.small, Ok(()), || cases::text(0));
    holds("text, below 0", named.refused, Err(Refusal::Value), || cases::text(-1));
}

#[test]
fn staff_takes_what_is_named() {
    let named = header("water_staff");
    let holds = |case: &str, named, answer, reading| holds(&format!("staff, {case}"), named, answer, || cases::staff(reading));
    holds("the greatest", named.any, Ok(()), Reading::Metres(50.0));
    holds("the least", named.any, Ok(()), Reading::Feet(f64::from_bits(1)));
    holds("metres", named.small, Ok(()), Reading::Metres(1.5));
    holds("feet", named.small, Ok(()), Reading::Feet(1.0));
    holds("no reading", named.small, Ok(()), Reading::Nothing);
    holds("not finite", named.refused, Err(Refusal::Value), Reading::Metres(f64::NAN));
    holds("below 0", named.refused, Err(Refusal::Value), Reading::Feet(-1.0));
    holds("too much", named.refused, Err(Refusal::Value), Reading::Metres(50.000_000_4));
    holds("an overflow", named.refused, Err(Refusal::Value), Reading::Feet(f64::MAX));
}

#[test]
fn read_raster_takes_what_is_named() {
    let named = header("water_read_raster");
    let holds = |case: &str, named, answer, text: fn() -> String, length| {
        holds(&format!("read a raster, {case}"), named, answer, || cases::read_raster(text(), length))
    };
    holds("128×128", named.any, Ok(()), || cases::raster(128), 16_384);
    holds("32×32", named.small, Ok(()), || cases::raster(32), 1_024);
    holds("1×1", named.small, Ok(()), || cases::raster(1), 1);
    holds("no text", named.refused, Err(Refusal::Raster), String::new, 0);
    holds("a bad word at the end", named.refused, Err(Refusal::Raster), || cases::raster(128) + "x", 16_384);
    holds("a value too many", named.refused, Err(Refusal::Raster), || cases::raster(128) + "0", 16_384);
    holds("too wide", named.refused, Err(Refusal::Card), || cases::raster(129), 16_641);
    holds("a list too short", named.refused, Err(Refusal::Length), || cases::raster(128), 16_383);
    holds("a bad value", named.refused, Err(Refusal::Value), || cases::raster(128).replace("49.999999", "50.000001"), 16_384);
}

#[test]
fn write_raster_takes_what_is_named() {
    let named = header("water_write_raster");
    holds("write a raster, 128×128", named.any, Ok(()), || cases::write_raster(cases::deep(128)));
    holds("write a raster, 8×8", named.small, Ok(()), || cases::write_raster(cases::deep(8)));
    let short = Err(Refusal::Room { needed: 762 });
    holds("write a raster, no room", named.small, short, || cases::write_raster_into(cases::deep(8), 761));
    holds("write a raster, a bad card", named.refused, Err(Refusal::Card), || cases::write_raster(cases::no_time(128)));
    holds("write a raster, an empty card", named.refused, Err(Refusal::Card), || cases::write_raster(cases::nothing()));
    holds("write a raster, a list too short", named.refused, Err(Refusal::Length), || cases::write_raster(cases::short(128)));
    holds("write a raster, a bad value", named.refused, Err(Refusal::Value), || cases::write_raster(cases::too_deep(128)));
}

/// The page of the package says the same.
#[test]
fn both_pages_name_the_same_stack() {
    let sheets = ["read_sheet", "write_sheet", "read_raster", "write_raster"];
    for call in ["step", "step_textbook", "run", "search", "search_lists", "depth_text", "staff"].into_iter().chain(sheets) {
        assert_eq!(named(PACKAGE, &format!("calls::{call}")), header(&format!("water_{call}")), "{call}");
    }
}
