//! What a surveyor's raster says of a site beside its ground.

use crate::raw::Card;

/// The columns and rows of a raster that was read, and the side of its cells in micrometres.
#[derive(Clone, Copy, Debug, PartialEq, Eq)]
pub struct Raster {
    pub columns: u32,
    pub rows: u32,
    /// the length of both sides of a cell
    pub side: u32,
}

impl Raster {
    /// The card of the raster's site, with a time step in ms and steps wanted, which no raster has.
    pub fn card(self, dt: u32, steps: u32) -> Card {
        let Raster { columns, rows, side } = self;
        Card { columns, rows, dx: side, dy: side, dt, steps }
    }

    /// How long a ground list the text asks for, by the second and the fourth of its words: columns times rows where each is 1 to 128, and
    /// otherwise 0, since then the text is refused with [`Refusal::Raster`](crate::Refusal::Raster) or
    /// [`Refusal::Card`](crate::Refusal::Card) whatever is lent. It is a look for room and no check: the library reads the text by itself.
    ///
    /// ```
    /// use water::Raster;
    /// assert_eq!(Raster::ground_length(b"ncols 3 nrows 2 and what stands behind"), 6);
    /// assert_eq!(Raster::ground_length(b"ncols 129 nrows 1"), 0);
    /// assert_eq!(Raster::ground_length(b"no raster"), 0);
    /// ```
    pub fn ground_length(text: &[u8]) -> usize {
        let mut words = text.split(|byte| b" \t\n\r".contains(byte)).filter(|word| !word.is_empty());
        let mut count = || -> Option<usize> { std::str::from_utf8(words.nth(1)?).ok()?.parse().ok() };
        match (count(), count()) {
            (Some(columns @ 1..=128), Some(rows @ 1..=128)) => columns * rows,
            _ => 0,
        }
    }
}

/// How many bytes the raster of a card and its ground has, where both are in range.
pub(crate) fn size(card: &Card, ground: &[i32]) -> usize {
    let lines = b"ncols \nnrows \nxllcorner 0\nyllcorner 0\ncellsize \n".len();
    let head = lines + digits(card.columns) + digits(card.rows) + metres(card.dx as i32);
    // each value has a blank or a line feed behind it
    ground.iter().fold(head, |size, &level| size + metres(level) + 1)
}

/// The bytes of so many micrometres as metres with six places.
fn metres(micrometres: i32) -> usize {
    let minus = usize::from(micrometres < 0);
    minus + digits(micrometres.unsigned_abs() / 1_000_000) + b".000000".len()
}

fn digits(number: u32) -> usize {
    let mut rest = number / 10;
    let mut digits = 1;
    while rest > 0 {
        rest /= 10;
        digits += 1;
    }
    digits
}
