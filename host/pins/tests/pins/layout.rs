//! The record's size and offsets, the version and the numbers, as include/pins.h has them; host/pins/c/pins.c holds C's to the same.

use pins::raw::{Listing, CHAMBERS, CREW, EACH, PLACES};
use std::mem::{align_of, size_of};

const HEADER: &str = include_str!("../../../../include/pins.h");

/// The header's version is the package's first number: both change where an older caller would no longer fit.
#[test]
fn the_header_has_the_packages_version() {
    let version = concat!("#define PINS_VERSION ", env!("CARGO_PKG_VERSION_MAJOR"));
    let defined: Vec<&str> = HEADER.lines().filter(|line| line.contains("PINS_VERSION")).collect();
    assert_eq!(defined, [version]);
}

#[test]
fn the_header_has_the_packages_numbers() {
    assert_eq!((PLACES, EACH, CHAMBERS, CREW), (64, 32, 1_000, 65_536));
    let numbers =
        format!("enum {{ PINS_PLACES = {PLACES}, PINS_EACH = {EACH}, PINS_CHAMBERS = {CHAMBERS}, PINS_CREW = {CREW} }};");
    assert_eq!(HEADER.lines().filter(|&line| line == numbers).count(), 1, "{numbers}");
}

#[test]
fn a_listing_is_laid_out_as_in_the_header() {
    let listing = Listing::default();
    let base = &listing as *const Listing as usize;
    assert_eq!((size_of::<Listing>(), align_of::<Listing>()), (8, 4));
    assert_eq!(&listing.number as *const u32 as usize - base, 0);
    assert_eq!(&listing.count as *const u32 as usize - base, 4);
}
