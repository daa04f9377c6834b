//! A table that owns its words, and a crew's pins as they are listed.

use crate::calls;
use crate::crew::Crew;
use crate::raw::{EACH, PLACES};
use crate::refusal::Refusal;
use std::fmt;
use std::iter::Take;
use std::ops::Deref;

/// The pins of both crews. It is always a good table: no call on it is refused with [`Refusal::Length`], [`Refusal::Table`] or
/// [`Refusal::Crew`].
///
/// Two tables are equal where every place of the one has what that of the other has; the same pins may stand in other places.
///
/// ```
/// use pins::{Crew, PinTable, Refusal};
/// let mut table = PinTable::new();
/// for chamber in 0..32 {
///     table.add(Crew::One, 10 * chamber)?;
/// }
/// assert_eq!(table.add(Crew::One, 5), Err(Refusal::Full));
/// table.add(Crew::Two, 5)?; // the other crew's 32 are its own
/// table.remove(Crew::One, 310)?;
/// table.add(Crew::One, 5)?;
/// assert_eq!(table.pins(Crew::One)[..4], [0, 5, 10, 20]);
/// # Ok::<(), Refusal>(())
/// ```
#[derive(Clone, Debug, PartialEq, Eq, Hash)]
pub struct PinTable {
    words: [u32; PLACES],
}

impl PinTable {
    /// An empty table.
    pub fn new() -> PinTable {
        PinTable { words: [0; PLACES] }
    }

    /// The table that these words are, one for each place: a free place is 0, and a pin 65,536 · crew + chamber. The library itself looks at
    /// them, and refuses a bad table with [`Refusal::Table`].
    ///
    /// ```
    /// use pins::{Crew, PinTable, Refusal};
    /// let mut words = [0; 64];
    /// words[63] = 65_536 + 907;
    /// let table = PinTable::from_words(words)?;
    /// assert_eq!(table.pins(Crew::One)[..], [907]);
    /// words[0] = 65_536 + 907;
    /// assert_eq!(PinTable::from_words(words), Err(Refusal::Table)); // a pin twice
    /// # Ok::<(), Refusal>(())
    /// ```
    pub fn from_words(words: [u32; PLACES]) -> Result<PinTable, Refusal> {
        // a listing looks at the whole table, whichever crew asks for it
        calls::list(&words, Crew::One.number(), &mut [0; EACH])?;
        Ok(PinTable { words })
    }

    /// The words, to be kept and given to [`PinTable::from_words`] again. They show places, which no answer to a crew does.
    pub fn words(&self) -> &[u32; PLACES] {
        &self.words
    }

    /// Puts a crew's pin on a chamber, into the lowest free place. Refused with [`Refusal::Chamber`], [`Refusal::Pinned`] or
    /// [`Refusal::Full`], which leaves the table as it is.
    pub fn add(&mut self, crew: Crew, chamber: u32) -> Result<(), Refusal> {
        calls::add(&mut self.words, crew.number(), chamber)
    }

    /// Takes a crew's pin off a chamber. Refused with [`Refusal::Chamber`] or [`Refusal::NotPinned`], which leaves the table as it is.
    pub fn remove(&mut self, crew: Crew, chamber: u32) -> Result<(), Refusal> {
        calls::remove(&mut self.words, crew.number(), chamber)
    }

    /// The chambers that a crew has pinned, rising.
    pub fn pins(&self, crew: Crew) -> Pins {
        let mut chambers = [0; EACH];
        let count = calls::list(&self.words, crew.number(), &mut chambers).expect("a good table");
        Pins { chambers, count }
    }

    /// Whether a crew has a pin on a chamber.
    ///
    /// ```
    /// use pins::{Crew, PinTable, Refusal};
    /// let mut table = PinTable::new();
    /// table.add(Crew::One, 12)?;
    /// assert!(table.contains(Crew::One, 12));
    /// assert!(!table.contains(Crew::Two, 12) && !table.contains(Crew::One, 1_000));
    /// # Ok::<(), Refusal>(())
    /// ```
    pub fn contains(&self, crew: Crew, chamber: u32) -> bool {
        self.pins(crew).binary_search(&chamber).is_ok()
    }
}

impl Default for PinTable {
    fn default() -> PinTable {
        PinTable::new()
    }
}

/// A crew's chambers at the time that they were listed, rising: a slice of up to 32, kept without the heap.
///
/// ```
/// use pins::{Crew, PinTable, Refusal};
/// let mut table = PinTable::new();
/// table.add(Crew::Two, 30)?;
/// table.add(Crew::Two, 4)?;
/// let pins = table.pins(Crew::Two);
/// assert_eq!((pins.len(), pins[0], pins.last()), (2, 4, Some(&30)));
/// assert_eq!(pins.into_iter().map(|chamber| chamber + 1).sum::<u32>(), 36);
/// # Ok::<(), Refusal>(())
/// ```
#[derive(Clone, Copy)]
pub struct Pins {
    chambers: [u32; EACH],
    count: usize,
}

impl Deref for Pins {
    type Target = [u32];

    fn deref(&self) -> &[u32] {
        &self.chambers[..self.count]
    }
}

impl PartialEq for Pins {
    fn eq(&self, other: &Pins) -> bool {
        self[..] == other[..]
    }
}

impl Eq for Pins {}

impl fmt::Debug for Pins {
    fn fmt(&self, f: &mut fmt::Formatter<'_>) -> fmt::Result {
        self[..].fmt(f)
    }
}

impl IntoIterator for Pins {
    type Item = u32;
    type IntoIter = Take<std::array::IntoIter<u32, EACH>>;

    fn into_iter(self) -> Self::IntoIter {
        self.chambers.into_iter().take(self.count)
    }
}

impl<'a> IntoIterator for &'a Pins {
    type Item = &'a u32;
    type IntoIter = std::slice::Iter<'a, u32>;

    fn into_iter(self) -> Self::IntoIter {
        self.iter()
    }
}
