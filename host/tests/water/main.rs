//! The library held to document 01, call by call, against a model written from the document.
//!
//! `cargo test --release` runs it all (host/check does so after it has made the archive). Variables:
//! `WATER_LONG=10` tries ten times as many cases; `WATER_SEED=n` tries others; `WATER_CASE=n` tries case n of each test alone.
//! Random cases print their number when they fail. A call that reads or writes beyond the fenced end of a list that it was lent
//! ends the whole program with SIGSEGV; with `--test-threads=1` the last test named is the one that was stopped.

/// What the names of the variables above begin with.
const VARIABLES: &str = "WATER";

mod model;

mod given;
mod lent;
mod library;
mod rng;
mod trials;
mod wild;

mod baseline;
mod floats;
mod layout;
mod numbers;
mod player;
mod ponds;
mod pumps;
mod raster;
mod run;
mod search;
mod sheet;
mod stack;
mod staff;
mod step;
mod sums;
mod text;
mod threads;
mod turns;
mod wrapper;
