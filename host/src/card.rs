//! How long a site's lists are, and where a cell stands in them, from its card. A host may ask before the card is checked, so that nothing
//! here can overflow: a product of any columns and rows fits the 64 bits that the library is compiled for, and sums are bounded.

use crate::raw::Card;

/// The sheet's bytes before the ground.
pub const SHEET_HEAD: usize = 19;

/// The longest lines of a raster's keys, those of 128 columns and rows and of sides of 20 m.
const RASTER_HEAD: usize = 63;

impl Card {
    /// How many cells there are: the length of the ground and of the heights.
    pub fn cells(&self) -> usize {
        self.columns as usize * self.rows as usize
    }

    /// The place in the ground's list, and among the heights, of the cell in a column, counted from the west, and a row, counted from the
    /// south; none where the site has no such cell.
    ///
    /// ```
    /// let card = water::Card { columns: 3, rows: 2, ..Default::default() };
    /// assert_eq!(card.cell(2, 1), Some(5));
    /// assert_eq!(card.cell(3, 0), None); // and not the first of the next row
    /// ```
    pub fn cell(&self, column: u32, row: u32) -> Option<usize> {
        let is_there = column < self.columns && row < self.rows;
        is_there.then(|| row as usize * self.columns as usize + column as usize)
    }

    /// How many faces have an eastward velocity, both walls of each row included.
    pub fn eastward_faces(&self) -> usize {
        (self.columns as usize + 1) * self.rows as usize
    }

    /// How many faces have a northward velocity, both walls of each column included.
    pub fn northward_faces(&self) -> usize {
        self.columns as usize * (self.rows as usize + 1)
    }

    /// How many words a state has: heights, eastward velocities, northward velocities. `usize::MAX` if the card is so far out of
    /// range that there are more.
    pub fn state_length(&self) -> usize {
        self.cells().saturating_add(self.eastward_faces()).saturating_add(self.northward_faces())
    }

    /// The volume in cubic micrometres of so many micrometres of height, summed over cells: of a site's heights, or of what a tally says was
    /// added or taken. It is exact: no product of these three numbers is more than a `u128` holds.
    ///
    /// ```
    /// let card = water::Card { dx: 1_000_000, dy: 500_000, ..Default::default() };
    /// assert_eq!(card.volume(3_000) / 10_u128.pow(12), 1_500); // millilitres
    /// ```
    pub fn volume(&self, heights: u64) -> u128 {
        u128::from(heights) * u128::from(self.dx) * u128::from(self.dy)
    }

    /// How many bytes the site's sheet has; `usize::MAX` if there are more.
    ///
    /// ```
    /// let card = water::Card { columns: 2, rows: 1, ..Default::default() };
    /// assert_eq!(card.sheet_size(), 63);
    /// ```
    pub fn sheet_size(&self) -> usize {
        self.cells().saturating_add(self.state_length()).saturating_mul(4).saturating_add(SHEET_HEAD)
    }

    /// Room that is enough for the raster of any ground of this site, which may take less; `usize::MAX` if it is more. Of the largest site it
    /// is [`raw::WATER_RASTER_BYTES`](crate::raw::WATER_RASTER_BYTES).
    ///
    /// ```
    /// let card = water::Card { columns: 2, rows: 1, ..Default::default() };
    /// assert_eq!(card.raster_room(), 85);
    /// ```
    pub fn raster_room(&self) -> usize {
        // a value is at most -50.000000, and has a blank or a line feed behind it
        self.cells().saturating_mul(11).saturating_add(RASTER_HEAD)
    }
}
