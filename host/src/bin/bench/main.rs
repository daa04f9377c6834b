//! The benchmark: each call of the library as a ratio to the same work in plain Rust, same input, same process, turn by turn.
//!
//! `cargo run --release --bin bench` prints four tables: that of step and run, that of a refused step and the other calls, that of the
//! textbook engine's step, and that of 64 pumps beside none. A step in plain Rust always divides, or, in the first table's second column,
//! skips a division where what it would divide is 0. All must give the same answers and lists, or it stops.
//! `cargo run --release --bin bench long` runs 10,000 steps on 128×128 and prints what a step costs along the way; `bench pumps` prints the
//! fourth table alone, and `bench rasters` what the second has of rasters.

mod clock;
mod machine;
mod plain;
mod sites;

use clock::{compare, seen};
use plain::Plain;
use sites::{pumps, readings, register, site, Measured, Water};
use std::time::Instant;
use water::raw::{Card, Window};
use water::{calls, Refusal};

fn number<T>(answer: &Result<T, Refusal>) -> u32 {
    match answer {
        Ok(_) => 0,
        Err(refusal) => refusal.number(),
    }
}

/// One row: our time and each other one, in µs, with the ratio to it.
fn row<const WAYS: usize>(work: &str, size: u32, water: &str, per: f64, medians: [f64; WAYS]) {
    row_of(&format!("{work} | {size}×{size} | {water}"), medians.map(|median| median / per));
}

fn row_of<const WAYS: usize>(work: &str, medians: [f64; WAYS]) {
    let times = medians.map(|median| median / 1e3);
    print!("| {work} | {:.2} |", times[0]);
    for plain in &times[1..] {
        print!(" {plain:.2} | {:.2} |", times[0] / plain);
    }
    println!();
}

fn bench_step(site: &Measured, water: &str) {
    let Measured { card, ground, state } = site;
    let (mut next, mut dividing_next, mut skipping_next) = (vec![0; state.len()], vec![0; state.len()], vec![0; state.len()]);
    let (mut dividing, mut skipping) = (Plain::<false>::new(), Plain::<true>::new());
    let medians = compare([
        &mut || {
            assert!(calls::step(*card, ground, state, &[], &mut next).is_ok());
            seen(&mut next);
        },
        &mut || {
            assert_eq!(dividing.step(*card, ground, state, &[], &mut dividing_next), 0);
            seen(&mut dividing_next);
        },
        &mut || {
            assert_eq!(skipping.step(*card, ground, state, &[], &mut skipping_next), 0);
            seen(&mut skipping_next);
        },
    ]);
    assert!(next == dividing_next && next == skipping_next, "all step alike");
    row("step", card.columns, water, 1.0, medians);
}

/// The textbook engine's step, beside plain Rust's and beside our first engine's.
fn bench_textbook(site: &Measured, water: &str) {
    let Measured { card, ground, state } = site;
    let (mut next, mut plain_next, mut first_next) = (vec![0; state.len()], vec![0; state.len()], vec![0; state.len()]);
    let mut plain = Plain::<false>::new();
    let medians = compare([
        &mut || {
            assert!(calls::step_textbook(*card, ground, state, &[], &mut next).is_ok());
            seen(&mut next);
        },
        &mut || {
            assert_eq!(plain.step_textbook(*card, ground, state, &[], &mut plain_next), 0);
            seen(&mut plain_next);
        },
        &mut || {
            assert!(calls::step(*card, ground, state, &[], &mut first_next).is_ok());
            seen(&mut first_next);
        },
    ]);
    assert!(next == plain_next && next == first_next, "all step alike");
    row("textbook step", card.columns, water, 1.0, medians);
}

/// A step that the look at the step limit refuses, and only at the last cell.
fn bench_refused(site: &Measured, water: &str) {
    let Measured { ground, state, .. } = site;
    let card = Card { dt: 60, ..site.card };
    let mut state = state.clone();
    // the last inner eastward face, at full speed out of the last cell
    state[card.cells() + card.eastward_faces() - 2] = -20_000_000;
    let (mut next, mut plain_next) = (vec![0; state.len()], vec![0; state.len()]);
    let mut plain = Plain::<false>::new();
    let medians = compare([
        &mut || {
            assert_eq!(calls::step(card, ground, &state, &[], &mut next), Err(Refusal::StepLimit));
            seen(&mut next);
        },
        &mut || {
            assert_eq!(plain.step(card, ground, &state, &[], &mut plain_next), 4);
            seen(&mut plain_next);
        },
    ]);
    assert!(next == plain_next, "both leave the next state as lent");
    row("step refused at the last cell (4)", card.columns, water, 1.0, medians);
}

fn bench_run(site: &Measured, water: &str, steps: u32) {
    let Measured { ground, state: start, .. } = site;
    let card = Card { steps, ..site.card };
    let lists = || (start.clone(), vec![0; start.len()]);
    let (mut ours, mut divided, mut skipped) = (lists(), lists(), lists());
    let (mut dividing, mut skipping) = (Plain::<false>::new(), Plain::<true>::new());
    let medians = compare([
        &mut || {
            ours.0.copy_from_slice(start);
            let tally = calls::run(card, ground, &mut ours.0, &[], &mut ours.1);
            assert_eq!((tally.steps, tally.reason), (steps, None));
            seen(&mut ours);
        },
        &mut || {
            divided.0.copy_from_slice(start);
            let tally = dividing.run(card, ground, &mut divided.0, &[], &mut divided.1);
            assert_eq!((tally.steps, tally.reason), (steps, 0));
            seen(&mut divided);
        },
        &mut || {
            skipped.0.copy_from_slice(start);
            let tally = skipping.run(card, ground, &mut skipped.0, &[], &mut skipped.1);
            assert_eq!((tally.steps, tally.reason), (steps, 0));
            seen(&mut skipped);
        },
    ]);
    assert!(ours == divided && ours == skipped, "all run alike");
    row("run, a step", card.columns, water, f64::from(steps), medians);
}

fn bench_search(site: &Measured, water: &str) {
    let Measured { card, ground, state } = site;
    let chambers = register(card);
    let (xs, ys): (Vec<i64>, Vec<i64>) = chambers.iter().map(|chamber| (chamber.x, chamber.y)).unzip();
    let width = f64::from(card.columns * card.dx);
    let window = Window { west: 0.1 * width, south: 0.1 * width, east: 0.9 * width, north: 0.9 * width };
    let depth = 2_000_000;
    let (mut found, mut plain_found) = (vec![0; 1_000], vec![0; 1_000]);
    let medians = compare([
        &mut || {
            let answer = calls::search(*card, ground, state, &chambers, window, depth, &mut found);
            assert_eq!(number(&answer), 0);
            seen(&mut found);
        },
        &mut || {
            let answer = plain::search(*card, ground, state, &chambers, window, depth, &mut plain_found);
            assert_eq!(answer.number, 0);
            seen(&mut plain_found);
        },
    ]);
    assert!(found == plain_found && found.iter().any(|&place| place > 0), "both search alike");
    row("search, 1,000 records", card.columns, water, 1.0, medians);
    let medians = compare([
        &mut || {
            let answer = calls::search_lists(*card, ground, state, &xs, &ys, window, depth, &mut found);
            assert_eq!(number(&answer), 0);
            seen(&mut found);
        },
        &mut || {
            let answer = plain::search_lists(*card, ground, state, &xs, &ys, window, depth, &mut plain_found);
            assert_eq!(answer.number, 0);
            seen(&mut plain_found);
        },
    ]);
    assert!(found == plain_found, "both search alike");
    row("search, two lists of 1,000", card.columns, water, 1.0, medians);
}

fn bench_sheet(site: &Measured, water: &str) {
    let Measured { card, ground, state } = site;
    let (mut sheet, mut plain_sheet) = (vec![0; card.sheet_size()], vec![0; card.sheet_size()]);
    let medians = compare([
        &mut || {
            assert!(calls::write_sheet(*card, ground, state, &mut sheet).is_ok());
            seen(&mut sheet);
        },
        &mut || {
            assert_eq!(plain::write_sheet(*card, ground, state, &mut plain_sheet).number, 0);
            seen(&mut plain_sheet);
        },
    ]);
    assert!(sheet == plain_sheet, "both write alike");
    row("write a sheet", card.columns, water, 1.0, medians);
    let (mut ours, mut plain) = ((vec![0; ground.len()], vec![0; state.len()]), (vec![0; ground.len()], vec![0; state.len()]));
    let medians = compare([
        &mut || {
            assert!(calls::read_sheet(&sheet, &mut ours.0, &mut ours.1).is_ok());
            seen(&mut ours);
        },
        &mut || {
            assert_eq!(plain::read_sheet(&sheet, &mut plain.0, &mut plain.1).number, 0);
            seen(&mut plain);
        },
    ]);
    assert!(ours == plain && ours.0 == *ground && ours.1 == *state, "both read alike");
    row("read a sheet", card.columns, water, 1.0, medians);
}

/// The raster of a site's ground, written and read, and its refusals: by the first key, by the last value and for a byte of room. A raster
/// knows nothing of water.
fn bench_raster(site: &Measured) {
    let Measured { card, ground, .. } = site;
    let (mut text, mut plain_text) = (vec![0; card.raster_room()], vec![0; card.raster_room()]);
    let mut size = 0;
    let medians = compare([
        &mut || {
            size = calls::write_raster(*card, ground, &mut text).expect("a site in range");
            seen(&mut text);
        },
        &mut || {
            assert_eq!(plain::write_raster(*card, ground, &mut plain_text).number, 0);
            seen(&mut plain_text);
        },
    ]);
    assert!(text == plain_text, "both write alike");
    row("write a raster", card.columns, "-", 1.0, medians);
    let (mut short, mut plain_short) = (vec![0; size - 1], vec![0; size - 1]);
    let medians = compare([
        &mut || {
            assert_eq!(calls::write_raster(*card, ground, &mut short), Err(Refusal::Room { needed: size }));
            seen(&mut short);
        },
        &mut || {
            assert_eq!(plain::write_raster(*card, ground, &mut plain_short).number, 8);
            seen(&mut plain_short);
        },
    ]);
    assert!(short == plain_short, "both leave the text as lent");
    row("write a raster, refused for a byte of room (8)", card.columns, "-", 1.0, medians);

    text.truncate(size);
    bench_raster_read("read a raster", card, &text, 0);
    let mut other_key = text.clone();
    other_key[0] = b'x';
    bench_raster_read("read a raster, refused by its first key (10)", card, &other_key, 10);
    let last = text.iter().rposition(|&byte| byte == b' ').expect("more than one value");
    let too_high = [&text[..last], b" 50.000001\n"].concat();
    bench_raster_read("read a raster, refused by its last value (3)", card, &too_high, 3);
}

fn bench_raster_read(work: &str, card: &Card, text: &[u8], expected: u32) {
    let (mut ground, mut plain_ground) = (vec![7; card.cells()], vec![7; card.cells()]);
    let medians = compare([
        &mut || {
            assert_eq!(number(&calls::read_raster(text, &mut ground)), expected);
            seen(&mut ground);
        },
        &mut || {
            assert_eq!(plain::read_raster(text, &mut plain_ground).number, expected);
            seen(&mut plain_ground);
        },
    ]);
    assert!(ground == plain_ground && (ground == vec![7; card.cells()]) == (expected > 0), "both read alike");
    row(work, card.columns, "-", 1.0, medians);
}

/// Readings have no site and no water.
fn bench_staff() {
    let readings = readings();
    let (mut heights, mut plain_heights) = (vec![Ok(None); readings.len()], vec![Ok(None); readings.len()]);
    let medians = compare([
        &mut || {
            for (height, reading) in heights.iter_mut().zip(&readings) {
                *height = calls::staff(*reading);
            }
            seen(&mut heights);
        },
        &mut || {
            for (height, reading) in plain_heights.iter_mut().zip(&readings) {
                *height = plain::staff(*reading);
            }
            seen(&mut plain_heights);
        },
    ]);
    assert!(heights == plain_heights && heights.iter().any(Result::is_err), "both read alike");
    row_of("1,000 staff readings | - | -", medians);
}

/// What 64 pumps cost: our time with them and without, then plain Rust's, in µs, with how many per cent more the pumps take; last, the ratio
/// with pumps. `per` is how many steps each time is of.
fn row_of_pumps(work: &str, size: u32, water: &str, per: f64, medians: [f64; 4]) {
    let [ours, ours_bare, plain, plain_bare] = medians.map(|median| median / per / 1e3);
    let more = |pumped: f64, bare: f64| 100.0 * (pumped / bare - 1.0);
    print!("| {work} | {size}×{size} | {water} | {ours:.2} | {ours_bare:.2} | {:+.1} % |", more(ours, ours_bare));
    println!(" {plain:.2} | {plain_bare:.2} | {:+.1} % | {:.2} |", more(plain, plain_bare), ours / plain);
}

fn bench_pumped_step(site: &Measured, water: &str) {
    let Measured { card, ground, state } = site;
    let pumps = pumps(card);
    let lists = || (vec![0; state.len()], vec![0; state.len()]);
    let (mut ours, mut plain_lists, mut plain) = (lists(), lists(), Plain::<false>::new());
    let mut plain_bare = Plain::<false>::new();
    let medians = compare([
        &mut || {
            assert!(calls::step(*card, ground, state, &pumps, &mut ours.0).is_ok());
            seen(&mut ours.0);
        },
        &mut || {
            assert!(calls::step(*card, ground, state, &[], &mut ours.1).is_ok());
            seen(&mut ours.1);
        },
        &mut || {
            assert_eq!(plain.step(*card, ground, state, &pumps, &mut plain_lists.0), 0);
            seen(&mut plain_lists.0);
        },
        &mut || {
            assert_eq!(plain_bare.step(*card, ground, state, &[], &mut plain_lists.1), 0);
            seen(&mut plain_lists.1);
        },
    ]);
    assert!(ours == plain_lists && ours.0 != ours.1, "both step alike, and the pumps are felt");
    row_of_pumps("step, 64 pumps", card.columns, water, 1.0, medians);
}

fn bench_pumped_run(site: &Measured, water: &str, steps: u32) {
    let Measured { ground, state: start, .. } = site;
    let card = Card { steps, ..site.card };
    let pumps = pumps(&card);
    let lists = || [start.clone(), vec![0; start.len()]];
    let (mut ours, mut ours_bare, mut plains, mut plains_bare) = (lists(), lists(), lists(), lists());
    let (mut plain, mut plain_bare) = (Plain::<false>::new(), Plain::<false>::new());
    let our_run = |pumps: &[i32], [state, scratch]: &mut [Vec<i32>; 2]| {
        state.copy_from_slice(start);
        let tally = calls::run(card, ground, state, pumps, scratch);
        assert_eq!(
            (tally.steps, tally.reason, tally.added > 0, tally.taken > 0),
            (steps, None, !pumps.is_empty(), !pumps.is_empty())
        );
    };
    let plain_run = |plain: &mut Plain<false>, pumps: &[i32], [state, scratch]: &mut [Vec<i32>; 2]| {
        state.copy_from_slice(start);
        let tally = plain.run(card, ground, state, pumps, scratch);
        assert_eq!(
            (tally.steps, tally.reason, tally.added > 0, tally.taken > 0),
            (steps, 0, !pumps.is_empty(), !pumps.is_empty())
        );
    };
    let medians = compare([
        &mut || {
            our_run(&pumps, &mut ours);
            seen(&mut ours);
        },
        &mut || {
            our_run(&[], &mut ours_bare);
            seen(&mut ours_bare);
        },
        &mut || {
            plain_run(&mut plain, &pumps, &mut plains);
            seen(&mut plains);
        },
        &mut || {
            plain_run(&mut plain_bare, &[], &mut plains_bare);
            seen(&mut plains_bare);
        },
    ]);
    assert!(ours == plains && ours_bare == plains_bare && ours != ours_bare, "both run alike, and the pumps are felt");
    row_of_pumps("run with 64 pumps, a step", card.columns, water, f64::from(steps), medians);
}

/// The longest run there is, in slices of 1,000 steps: a step must not get slower along the way.
fn long_run() {
    let Measured { ground, mut state, card } = site(128, Water::Moving);
    let (mut scratch, mut plain_state, mut plain_scratch) = (vec![0; state.len()], state.clone(), vec![0; state.len()]);
    let mut plain = Plain::<false>::new();
    let card = Card { steps: 1_000, ..card };
    println!("| steps | ours, µs a step | plain Rust, µs a step | ratio |");
    println!("|---|---|---|---|");
    for slice in 1..=10 {
        let start = Instant::now();
        let tally = calls::run(card, &ground, &mut state, &[], &mut scratch);
        let ours = start.elapsed().as_secs_f64() * 1e3;
        let start = Instant::now();
        let plain_tally = plain.run(card, &ground, &mut plain_state, &[], &mut plain_scratch);
        let plain = start.elapsed().as_secs_f64() * 1e3;
        assert_eq!((tally.steps, tally.reason), (1_000, None));
        assert!((plain_tally.steps, plain_tally.top) == (tally.steps, tally.top) && plain_state == state, "both run alike");
        println!("| {} | {ours:.1} | {plain:.1} | {:.2} |", slice * 1_000, ours / plain);
    }
}

// A step and a run with 64 pumps beside the same without.
fn pumped_table() {
    println!("| work | site | water | ours, µs | without pumps, µs | pumps cost | plain Rust, µs | without pumps, µs | pumps cost | ratio |");
    println!("|---|---|---|---|---|---|---|---|---|---|");
    for (size, steps) in [(8, 500), (128, 20)] {
        let site = site(size, Water::Moving);
        bench_pumped_step(&site, "moving");
        bench_pumped_run(&site, "moving", steps);
    }
}

// Rasters alone; the second table has them too.
fn raster_table() {
    println!("| work | site | water | ours, µs | plain Rust, µs | ratio |");
    println!("|---|---|---|---|---|---|");
    for size in [8, 128] {
        bench_raster(&site(size, Water::Moving));
    }
}

fn main() {
    let (machine, native) = machine::kind();
    println!("Machine: {machine}.");
    if !native {
        println!("Emulated: these times and ratios say nothing about the library's speed.");
    }
    println!();
    if std::env::args().any(|word| word == "long") {
        return long_run();
    }
    if std::env::args().any(|word| word == "pumps") {
        return pumped_table();
    }
    if std::env::args().any(|word| word == "rasters") {
        return raster_table();
    }
    println!("| work | site | water | ours, µs | plain Rust, µs | ratio | plain Rust that skips, µs | ratio |");
    println!("|---|---|---|---|---|---|---|---|");
    for (size, steps) in [(8, 500), (16, 200), (128, 20)] {
        for water in Water::ALL {
            let site = site(size, water);
            bench_step(&site, water.name());
            bench_run(&site, water.name(), steps);
        }
    }
    println!();
    println!("| work | site | water | ours, µs | plain Rust, µs | ratio |");
    println!("|---|---|---|---|---|---|");
    for size in [8, 128] {
        let site = site(size, Water::Moving);
        bench_refused(&site, "moving");
        bench_search(&site, "moving");
        bench_sheet(&site, "moving");
        bench_raster(&site);
    }
    bench_staff();
    println!();
    println!("| work | site | water | ours, µs | plain Rust, µs | ratio | our first engine, µs | ratio |");
    println!("|---|---|---|---|---|---|---|---|");
    for size in [8, 16, 128] {
        for water in Water::ALL {
            bench_textbook(&site(size, water), water.name());
        }
    }
    println!();
    pumped_table();
}
