//! The library's records and calls as `include/water.h` declares them: the same names, the same layouts, nothing checked.
//!
//! Use the safe calls of [`crate::calls`] or a [`crate::Site`]; this module is what they stand on.

/// The `WATER_VERSION` of the header that these declarations are of. It changes where an older object would no longer fit; the package's own
/// first number also where an older Rust host would no longer compile.
pub const VERSION: u32 = 3;

/// The site card: columns and rows are 1 to 128, sides 100,000 to 20,000,000 micrometres, `dt` 1 to 1,000 milliseconds.
#[repr(C)]
#[derive(Clone, Copy, Debug, Default, PartialEq, Eq)]
pub struct Card {
    pub columns: u32,
    pub rows: u32,
    pub dx: u32,
    pub dy: u32,
    pub dt: u32,
    /// steps wanted, 0 to 10,000
    pub steps: u32,
}

/// A pump: its cell, by the cell's place in the ground's list, and its amount in micrometres a step. [`crate::Pump`] names the cell by column
/// and row.
#[repr(C)]
#[derive(Clone, Copy, Debug, Default, PartialEq, Eq)]
pub struct Pump {
    pub cell: i32,
    pub amount: i32,
}

impl Pump {
    /// Records as the list of words that the calls take, cell and amount by turns.
    ///
    /// ```
    /// use water::raw::Pump;
    /// let pumps = [Pump { cell: 0, amount: -100 }, Pump { cell: 7, amount: 20 }];
    /// assert_eq!(Pump::words(&pumps), [0, -100, 7, 20]);
    /// ```
    pub fn words(pumps: &[Pump]) -> &[i32] {
        // Safety: a record is two words and nothing else, and the words are borrowed as long as the records are.
        unsafe { std::slice::from_raw_parts(pumps.as_ptr().cast(), 2 * pumps.len()) }
    }
}

/// What a run answers: steps done, the number of the reason it stopped, the greatest height of the starting state and each accepted one, and
/// what its pumps added and took.
#[repr(C)]
#[derive(Clone, Copy, Debug, Default, PartialEq, Eq)]
pub struct Tally {
    pub steps: u32,
    pub reason: u32,
    pub top: i32,
    pub added: u64,
    pub taken: u64,
}

/// The window that a finger drew: four edges in micrometres. They are never rounded.
#[repr(C)]
#[derive(Clone, Copy, Debug, Default, PartialEq)]
pub struct Window {
    pub west: f64,
    pub south: f64,
    pub east: f64,
    pub north: f64,
}

/// A chamber of the register, in micrometres from the south-west corner.
#[repr(C)]
#[derive(Clone, Copy, Debug, Default, PartialEq, Eq)]
pub struct Chamber {
    pub x: i64,
    pub y: i64,
}

/// What a search answers.
#[repr(C)]
#[derive(Clone, Copy, Debug, Default, PartialEq, Eq)]
pub struct Found {
    pub number: u32,
    pub count: u32,
}

/// What the sheet reader answers.
#[repr(C)]
#[derive(Clone, Copy, Debug, Default, PartialEq, Eq)]
pub struct Heard {
    pub number: u32,
    pub card: Card,
}

/// What the sheet writer answers, and the raster writer.
#[repr(C)]
#[derive(Clone, Copy, Debug, Default, PartialEq, Eq)]
pub struct Wrote {
    pub number: u32,
    pub size: u32,
}

/// The kind of a staff reading where nothing was read.
pub const WATER_NOTHING: u32 = 0;
/// The kind of one in metres.
pub const WATER_METRES: u32 = 1;
/// The kind of one in feet.
pub const WATER_FEET: u32 = 2;

/// What a staff reading answers: its number, 1 or 0 for a height or none, and the height in micrometres, 0 if there is none.
#[repr(C)]
#[derive(Clone, Copy, Debug, Default, PartialEq, Eq)]
pub struct Staff {
    pub number: u32,
    pub read: u32,
    pub height: i32,
}

/// What the raster reader answers: columns, rows and the side of a cell in micrometres, all 0 if it is refused.
#[repr(C)]
#[derive(Clone, Copy, Debug, Default, PartialEq, Eq)]
pub struct Raster {
    pub number: u32,
    pub columns: u32,
    pub rows: u32,
    pub side: u32,
}

/// Room for the raster of any site.
pub const WATER_RASTER_BYTES: usize = 180_287;

/// A step's call by either engine: [`water_step`] or [`water_step_textbook`].
pub type Step = unsafe extern "C" fn(Card, *const i32, usize, *const i32, usize, *const i32, usize, *mut i32, usize) -> u32;

extern "C" {
    pub fn water_step(
        card: Card,
        ground: *const i32,
        ground_length: usize,
        state: *const i32,
        state_length: usize,
        pumps: *const i32,
        pumps_length: usize,
        next: *mut i32,
        next_length: usize,
    ) -> u32;

    pub fn water_step_textbook(
        card: Card,
        ground: *const i32,
        ground_length: usize,
        state: *const i32,
        state_length: usize,
        pumps: *const i32,
        pumps_length: usize,
        next: *mut i32,
        next_length: usize,
    ) -> u32;

    pub fn water_run(
        card: Card,
        ground: *const i32,
        ground_length: usize,
        state: *mut i32,
        state_length: usize,
        pumps: *const i32,
        pumps_length: usize,
        scratch: *mut i32,
        scratch_length: usize,
    ) -> Tally;

    pub fn water_search(
        card: Card,
        ground: *const i32,
        ground_length: usize,
        state: *const i32,
        state_length: usize,
        chambers: *const Chamber,
        chambers_length: usize,
        window: Window,
        depth: i32,
        found: *mut u32,
        found_length: usize,
    ) -> Found;

    pub fn water_search_lists(
        card: Card,
        ground: *const i32,
        ground_length: usize,
        state: *const i32,
        state_length: usize,
        xs: *const i64,
        xs_length: usize,
        ys: *const i64,
        ys_length: usize,
        window: Window,
        depth: i32,
        found: *mut u32,
        found_length: usize,
    ) -> Found;

    pub fn water_read_sheet(
        sheet: *const u8,
        sheet_length: usize,
        ground: *mut i32,
        ground_length: usize,
        state: *mut i32,
        state_length: usize,
    ) -> Heard;

    pub fn water_write_sheet(
        card: Card,
        ground: *const i32,
        ground_length: usize,
        state: *const i32,
        state_length: usize,
        bytes: *mut u8,
        bytes_length: usize,
    ) -> Wrote;

    pub fn water_depth_text(height: i32, scratch: *mut u8, scratch_length: usize) -> usize;

    pub fn water_staff(kind: u32, value: f64) -> Staff;

    pub fn water_read_raster(text: *const u8, text_length: usize, ground: *mut i32, ground_length: usize) -> Raster;

    pub fn water_write_raster(card: Card, ground: *const i32, ground_length: usize, text: *mut u8, text_length: usize) -> Wrote;
}
