//! The record, the numbers and the calls as `include/pins.h` declares them: the same layouts, nothing checked.
//!
//! Use the safe calls of [`crate::calls`] or a [`crate::PinTable`]; this module is what they stand on.

/// How many places a table has, which is its length in words.
pub const PLACES: usize = 64;
/// How many pins each crew may have, which is the length of the list that a listing fills.
pub const EACH: usize = 32;
/// How many chambers there are: 0 to 999.
pub const CHAMBERS: u32 = 1_000;
/// What a word has for each crew: a pin is `CREW * crew + chamber`, and a free place is 0.
pub const CREW: u32 = 65_536;

/// What a listing answers: its number, and how many chambers stand at the front of the list, 0 if refused.
#[repr(C)]
#[derive(Clone, Copy, Debug, Default, PartialEq, Eq)]
pub struct Listing {
    /// 0, or why it was refused
    pub number: u32,
    /// how many chambers were listed
    pub count: u32,
}

extern "C" {
    /// Puts a crew's pin into the lowest free place.
    pub fn pins_add(table: *mut u32, table_length: usize, crew: u32, chamber: u32) -> u32;

    /// Takes a crew's pin away.
    pub fn pins_remove(table: *mut u32, table_length: usize, crew: u32, chamber: u32) -> u32;

    /// A crew's chambers, rising, at the front of `found`.
    pub fn pins_list(table: *const u32, table_length: usize, crew: u32, found: *mut u32, found_length: usize) -> Listing;
}
