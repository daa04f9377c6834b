//! The pins of two crews in one shared table: a safe wrapper over calls that are each proved against their contract.
//!
//! Two crews put pins on chambers of one register, 0 to 999, in one table of 64 places. A crew adds, removes and lists its own pins. Both may
//! have a pin on the same chamber; each may have 32 at most. A [`PinTable`] owns its words and is the comfortable way in; [`calls`] has the
//! calls on slices that a host keeps itself; [`raw`] is what C sees. None of them uses the heap.
//!
//! ```
//! use pins::{Crew, PinTable, Refusal};
//! let mut table = PinTable::new();
//! table.add(Crew::One, 907)?;
//! table.add(Crew::Two, 12)?;
//! table.add(Crew::One, 12)?; // both crews may pin one chamber
//! assert_eq!(table.pins(Crew::One)[..], [12, 907]);
//! assert_eq!(table.pins(Crew::Two)[..], [12]);
//! assert_eq!(table.remove(Crew::Two, 907), Err(Refusal::NotPinned)); // that one is the other crew's
//! # Ok::<(), Refusal>(())
//! ```
//!
//! From an empty table on, a crew's answers depend on its own calls only, whatever the other crew does in between.
//!
//! # Stack
//!
//! What a call takes, in bytes, where the archive is `rt`'s for x86-64 (a thread takes some for itself besides, and so does a loader that
//! binds memcpy and memset only when they are first called):
//!
//! | call | any input |
//! |---|---|
//! | [`calls::add`] | 2,000 |
//! | [`calls::remove`] | 2,000 |
//! | [`calls::list`] | 2,000 |
//!
//! A [`PinTable`] takes as much as the calls that it makes, and 1,000 for the list of a crew's pins.
//!
//! # The archive
//!
//! The archive is made by `./archives pins` at the repository's root, and found there by this package's build script; the variable
//! `PINS_LIB_DIR` names the folder of another one.
#![deny(missing_docs)]

pub mod calls;
mod crew;
pub mod raw;
mod refusal;
mod table;

pub use crew::Crew;
pub use raw::{CHAMBERS, EACH, PLACES};
pub use refusal::Refusal;
pub use table::{PinTable, Pins};
