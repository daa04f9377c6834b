//! The pin table held to document 02's [13], call by call, against two models written from the document: one of the table's words, and one
//! of two sets of chambers that knows no table.
//!
//! `cargo test --release` runs it all (host/check does so after it has made the archive). Variables:
//! `PINS_LONG=10` tries ten times as many cases; `PINS_SEED=n` tries others; `PINS_CASE=n` tries case n of each test alone.
//! Random cases print their number when they fail. A call that reads or writes beyond the fenced end of a list that it was lent
//! ends the whole program with SIGSEGV; with `--test-threads=1` the last test named is the one that was stopped.

/// What the names of the variables above begin with.
const VARIABLES: &str = "PINS";

mod model;

mod given;
mod library;
mod tables;

// the water library's tests have these three, and ask more of them
#[allow(dead_code)]
#[path = "../../../tests/water/lent.rs"]
mod lent;
#[allow(dead_code)]
#[path = "../../../tests/water/rng.rs"]
mod rng;
#[allow(dead_code)]
#[path = "../../../tests/water/trials.rs"]
mod trials;

mod apart;
mod baseline;
mod boundary;
mod histories;
mod hostile;
mod layout;
mod numbers;
mod order;
mod short;
mod stack;
mod threads;
mod wrapper;
