//! Each call on fenced lists, beside the model of the table's words: both get the same input, and the answer and every word of every lent list
//! are compared. A call that leaves a list at one end meets a fence; one that writes within 1,024 bytes of the other end spoils a pattern.
//! Each function returns the answer that both gave.

use crate::lent::Lent;
use crate::model;
use crate::rng::Rng;
use crate::tables;
use pins::raw::{self, Listing};

type Call = unsafe extern "C" fn(*mut u32, usize, u32, u32) -> u32;
type Model = fn(&mut [u32], u32, u32) -> u32;

fn change(what: &str, call: Call, model: Model, rng: &mut Rng, table: &mut [u32], crew: u32, chamber: u32) -> u32 {
    let lent = Lent::new(rng, "table", table);
    // Safety, here and below: each pointer comes with its own list's length, and no two lists share memory.
    let number = unsafe { call(lent.pointer(), lent.length(), crew, chamber) };
    let before = table.to_vec();
    let expected = model(table, crew, chamber);
    assert_eq!(number, expected, "{what}, crew {crew}, chamber {chamber}, on {before:?}");
    lent.assert_holds(table);
    number
}

pub fn add(rng: &mut Rng, table: &mut [u32], crew: u32, chamber: u32) -> u32 {
    change("add", raw::pins_add, model::add, rng, table, crew, chamber)
}

pub fn remove(rng: &mut Rng, table: &mut [u32], crew: u32, chamber: u32) -> u32 {
    change("remove", raw::pins_remove, model::remove, rng, table, crew, chamber)
}

pub fn list(rng: &mut Rng, table: &[u32], crew: u32, found: &mut [u32]) -> Listing {
    let (t, f) = (Lent::new(rng, "table", table), Lent::new(rng, "found", found));
    let listing = unsafe { raw::pins_list(t.pointer(), t.length(), crew, f.pointer(), f.length()) };
    let expected = model::list(table, crew, found);
    assert_eq!(listing, expected, "listing, crew {crew}, of {table:?} into {}", found.len());
    t.assert_holds(table);
    f.assert_holds(found);
    listing
}

/// The numbers of an add, a remove and a listing, each on a table of its own with these words.
pub fn numbers(rng: &mut Rng, table: &[u32], crew: u32, chamber: u32) -> [u32; 3] {
    let added = add(rng, &mut table.to_vec(), crew, chamber);
    let removed = remove(rng, &mut table.to_vec(), crew, chamber);
    let mut found = tables::found(rng);
    [added, removed, list(rng, table, crew, &mut found).number]
}
