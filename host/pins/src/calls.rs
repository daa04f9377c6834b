//! The calls on slices: typed refusals in the place of numbers, nothing else added.
//!
//! Each takes any input at all. Where one is refused, every lent list is as it was.
//!
//! `table` has 64 words, one for each place: 0 is free, and a pin is [`raw::CREW`] · crew + chamber. All zeros are an empty table.

use crate::raw;
use crate::refusal::Refusal;

/// What a number says; 13 is the one refusal or the other, as the call has it.
fn done<T>(number: u32, at_13: Refusal, answer: T) -> Result<T, Refusal> {
    match Refusal::of(number, at_13) {
        None => Ok(answer),
        Some(refusal) => Err(refusal),
    }
}

/// Puts `crew`'s pin on `chamber` into the lowest free place.
///
/// Refused, in this order: [`Refusal::Length`], [`Refusal::Table`], [`Refusal::Crew`], [`Refusal::Chamber`], [`Refusal::Pinned`],
/// [`Refusal::Full`].
///
/// ```
/// use pins::{calls, Refusal};
/// let mut table = [0; 64];
/// calls::add(&mut table, 2, 999)?;
/// calls::add(&mut table, 1, 999)?;
/// assert_eq!(table[..3], [2 * 65_536 + 999, 65_536 + 999, 0]);
/// assert_eq!(calls::add(&mut table, 1, 999), Err(Refusal::Pinned));
/// assert_eq!(calls::add(&mut table, 3, 999), Err(Refusal::Crew));
/// assert_eq!(calls::add(&mut table, 1, 1_000), Err(Refusal::Chamber));
/// assert_eq!(calls::add(&mut table[1..], 1, 0), Err(Refusal::Length));
/// table[63] = 5; // crew 0
/// assert_eq!(calls::add(&mut table, 1, 0), Err(Refusal::Table));
/// # Ok::<(), Refusal>(())
/// ```
pub fn add(table: &mut [u32], crew: u32, chamber: u32) -> Result<(), Refusal> {
    // Safety, here and below: each pointer comes with its own slice's length, and what is changed or filled is borrowed alone.
    let number = unsafe { raw::pins_add(table.as_mut_ptr(), table.len(), crew, chamber) };
    done(number, Refusal::Pinned, ())
}

/// Takes `crew`'s pin off `chamber`: its place is free again, and serves again.
///
/// Refused, in this order: [`Refusal::Length`], [`Refusal::Table`], [`Refusal::Crew`], [`Refusal::Chamber`], [`Refusal::NotPinned`].
///
/// ```
/// use pins::{calls, Refusal};
/// let mut table = [0; 64];
/// calls::add(&mut table, 1, 7)?;
/// calls::add(&mut table, 2, 8)?;
/// calls::remove(&mut table, 1, 7)?;
/// assert_eq!(table[..3], [0, 2 * 65_536 + 8, 0]);
/// assert_eq!(calls::remove(&mut table, 1, 8), Err(Refusal::NotPinned)); // by the other crew only
/// calls::add(&mut table, 2, 9)?;
/// assert_eq!(table[..3], [2 * 65_536 + 9, 2 * 65_536 + 8, 0]);
/// # Ok::<(), Refusal>(())
/// ```
pub fn remove(table: &mut [u32], crew: u32, chamber: u32) -> Result<(), Refusal> {
    let number = unsafe { raw::pins_remove(table.as_mut_ptr(), table.len(), crew, chamber) };
    done(number, Refusal::NotPinned, ())
}

/// The chambers that `crew` has pinned, rising: as many as is answered stand at the front of `found`, which has 32 words, and the rest is as
/// it was.
///
/// Refused, in this order: [`Refusal::Length`] (of either list), [`Refusal::Table`], [`Refusal::Crew`].
///
/// ```
/// use pins::{calls, Refusal};
/// let mut table = [0; 64];
/// calls::add(&mut table, 1, 7)?;
/// calls::add(&mut table, 2, 5)?;
/// calls::add(&mut table, 1, 3)?;
/// let mut found = [9; 32];
/// assert_eq!(calls::list(&table, 1, &mut found), Ok(2));
/// assert_eq!(found[..4], [3, 7, 9, 9]);
/// assert_eq!(calls::list(&table, 1, &mut found[..31]), Err(Refusal::Length));
/// # Ok::<(), Refusal>(())
/// ```
pub fn list(table: &[u32], crew: u32, found: &mut [u32]) -> Result<usize, Refusal> {
    let listing = unsafe { raw::pins_list(table.as_ptr(), table.len(), crew, found.as_mut_ptr(), found.len()) };
    // a listing gives no 13
    done(listing.number, Refusal::NotPinned, listing.count as usize)
}
