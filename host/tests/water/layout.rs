//! Sizes and offsets of the records, as include/water.h has them; host/c/numbers.c holds C's to the same table. That the library
//! reads and writes each field at its place is seen wherever a test compares records whose fields all differ.

use std::mem::{align_of, size_of};
use water::raw::{Card, Chamber, Found, Heard, Pump, Raster, Staff, Tally, Window, Wrote};
use water::raw::{WATER_FEET, WATER_METRES, WATER_NOTHING, WATER_RASTER_BYTES};

macro_rules! offsets {
    ($record:ty: $($field:ident)*) => {{
        let record = <$record>::default();
        let base = &record as *const $record as usize;
        vec![$(&record.$field as *const _ as usize - base),*]
    }};
}

/// The header's version is the one that the package's declarations are of.
#[test]
fn the_header_has_the_packages_version() {
    let header = include_str!("../../../include/water.h");
    let version = format!("#define WATER_VERSION {}", water::raw::VERSION);
    let defined: Vec<&str> = header.lines().filter(|line| line.contains("WATER_VERSION")).collect();
    assert_eq!(defined, [version]);
}

/// The header's kinds of a staff reading are the package's.
#[test]
fn the_header_has_the_packages_kinds() {
    let header = include_str!("../../../include/water.h");
    let kinds = format!("enum {{ WATER_NOTHING = {WATER_NOTHING}, WATER_METRES = {WATER_METRES}, WATER_FEET = {WATER_FEET} }};");
    assert_eq!(header.lines().filter(|&line| line == kinds).count(), 1, "{kinds}");
}

/// And so is its room for a raster.
#[test]
fn the_header_has_the_packages_room_for_a_raster() {
    let header = include_str!("../../../include/water.h");
    let room = format!("#define WATER_RASTER_BYTES {WATER_RASTER_BYTES}");
    assert_eq!(header.lines().filter(|&line| line == room).count(), 1, "{room}");
}

#[test]
fn records_are_laid_out_as_in_the_header() {
    assert_eq!((size_of::<Card>(), align_of::<Card>()), (24, 4));
    assert_eq!(offsets!(Card: columns rows dx dy dt steps), [0, 4, 8, 12, 16, 20]);
    assert_eq!((size_of::<Pump>(), align_of::<Pump>()), (8, 4));
    assert_eq!(offsets!(Pump: cell amount), [0, 4]);
    // four bytes of padding behind top
    assert_eq!((size_of::<Tally>(), align_of::<Tally>()), (32, 8));
    assert_eq!(offsets!(Tally: steps reason top added taken), [0, 4, 8, 16, 24]);
    assert_eq!((size_of::<Window>(), align_of::<Window>()), (32, 8));
    assert_eq!(offsets!(Window: west south east north), [0, 8, 16, 24]);
    assert_eq!((size_of::<Chamber>(), align_of::<Chamber>()), (16, 8));
    assert_eq!(offsets!(Chamber: x y), [0, 8]);
    assert_eq!((size_of::<Found>(), align_of::<Found>()), (8, 4));
    assert_eq!(offsets!(Found: number count), [0, 4]);
    assert_eq!((size_of::<Heard>(), align_of::<Heard>()), (28, 4));
    assert_eq!(offsets!(Heard: number card), [0, 4]);
    assert_eq!((size_of::<Wrote>(), align_of::<Wrote>()), (8, 4));
    assert_eq!(offsets!(Wrote: number size), [0, 4]);
    assert_eq!((size_of::<Staff>(), align_of::<Staff>()), (12, 4));
    assert_eq!(offsets!(Staff: number read height), [0, 4, 8]);
    assert_eq!((size_of::<Raster>(), align_of::<Raster>()), (16, 4));
    assert_eq!(offsets!(Raster: number columns rows side), [0, 4, 8, 12]);
}
