//! The benchmark: each call as a ratio to the same work in plain Rust, same input, same process, turn by turn.
//!
//! `cargo run --release --bin bench` prints one table. Both must give the same answers and lists, or it stops.

// the water library's benchmark has these two
#[path = "../../../../src/bin/bench/clock.rs"]
mod clock;
#[path = "../../../../src/bin/bench/machine.rs"]
mod machine;
mod plain;

use clock::{compare, seen};
use pins::{calls, raw, Refusal};

/// So many pins of each crew, in no order, none of them on chamber 500.
fn table(one: u32, two: u32) -> Vec<u32> {
    let mut table = vec![0; 64];
    for (crew, count) in [(1, one), (2, two)] {
        for k in 0..count {
            let place = (k * 2 + crew - 1) * 37 % 64;
            table[place as usize] = raw::CREW * crew + k * 631 % 1_000;
        }
    }
    table
}

fn number<T>(answer: Result<T, Refusal>) -> u32 {
    answer.map_or_else(Refusal::number, |_| 0)
}

/// One row: our time and plain Rust's, in ns, with the ratio to it.
fn row(work: &str, of: &str, [ours, plain]: [f64; 2]) {
    println!("| {work} | {of} | {ours:.0} | {plain:.0} | {:.2} |", ours / plain);
}

/// A pin of crew 2's is put on chamber 500 and taken away again.
fn bench_add_and_remove(of: &str, table: &[u32]) {
    let (mut ours, mut plain) = (table.to_vec(), table.to_vec());
    let [mut after, mut plain_after] = [table.to_vec(), table.to_vec()];
    assert_eq!((calls::add(&mut after, 2, 500), plain::add(&mut plain_after, 2, 500)), (Ok(()), 0));
    assert!(after == plain_after && after != table, "both add alike");
    let medians = compare([
        &mut || {
            assert!(calls::add(&mut ours, 2, 500).is_ok());
            seen(&mut ours);
            assert!(calls::remove(&mut ours, 2, 500).is_ok());
            seen(&mut ours);
        },
        &mut || {
            assert_eq!(plain::add(&mut plain, 2, 500), 0);
            seen(&mut plain);
            assert_eq!(plain::remove(&mut plain, 2, 500), 0);
            seen(&mut plain);
        },
    ]);
    assert!(ours == table && plain == table, "what was added was removed");
    row("add and remove", of, medians);
}

fn bench_list(work: &str, of: &str, table: &[u32], expected: u32) {
    let (mut ours, mut plain) = ((table.to_vec(), [7; 32]), (table.to_vec(), [7; 32]));
    let medians = compare([
        &mut || {
            assert_eq!(number(calls::list(&ours.0, 1, &mut ours.1)), expected);
            seen(&mut ours);
        },
        &mut || {
            assert_eq!(plain::list(&plain.0, 1, &mut plain.1).number, expected);
            seen(&mut plain);
        },
    ]);
    let count = calls::list(&ours.0, 1, &mut ours.1).unwrap_or(0);
    assert_eq!(count, plain::list(&plain.0, 1, &mut plain.1).count as usize, "both list as many");
    assert!(ours == plain, "both list alike");
    row(work, of, medians);
}

/// An add that is refused: the table stays.
fn bench_refused(work: &str, of: &str, table: &[u32], crew: u32, chamber: u32, expected: u32) {
    let (mut ours, mut plain) = (table.to_vec(), table.to_vec());
    let medians = compare([
        &mut || {
            assert_eq!(number(calls::add(&mut ours, crew, chamber)), expected);
            seen(&mut ours);
        },
        &mut || {
            assert_eq!(plain::add(&mut plain, crew, chamber), expected);
            seen(&mut plain);
        },
    ]);
    assert!(ours == table && plain == table, "both leave the table as lent");
    row(work, of, medians);
}

fn main() {
    let (machine, native) = machine::kind();
    println!("Machine: {machine}.");
    if !native {
        println!("Emulated: these times and ratios say nothing about the library's speed.");
    }
    println!();
    println!("| work | table | ours, ns | plain Rust, ns | ratio |");
    println!("|---|---|---|---|---|");
    let (empty, half, full) = (table(0, 0), table(16, 16), table(32, 32));
    bench_add_and_remove("empty", &empty);
    bench_add_and_remove("16 pins of each", &half);
    bench_add_and_remove("32 and 31 pins", &table(32, 31));
    bench_list("list", "empty", &empty, 0);
    bench_list("list", "16 pins of each", &half, 0);
    bench_list("list", "32 pins of each", &full, 0);
    bench_refused("add refused with 2", "63 words", &full[..63], 1, 500, 2);
    let mut bad = full.clone();
    bad[63] = 5;
    bench_refused("add refused with 3", "32 pins of each, the last word bad", &bad, 1, 500, 3);
    bad[63] = bad[0];
    bench_refused("add refused with 3", "32 pins of each, the last word the first again", &bad, 1, 500, 3);
    bench_list("list refused with 3", "32 pins of each, the last word the first again", &bad, 3);
    bench_refused("add refused with 14", "32 pins of each", &full, 2, 500, 14);
}
