//! Shallow water over a surveyed site: a safe wrapper over a library whose every call is proved against its contract.
//!
//! A [`Site`] owns its lists and is the comfortable way in; [`calls`] has the library's calls on slices that a host keeps itself;
//! [`raw`] is what C sees. All state is whole numbers: micrometres, micrometres a second, milliseconds. Rows run south to north,
//! and within a row west to east. Two engines make a step, to the same numbers: [`calls::step`] is the default, which a run repeats, and
//! [`calls::step_textbook`] is for reading beside the paper (of Herbin, Latché, Nasseri and Therme). Steps and runs take up to 64 pumps and
//! inlets ([`Pump`]). What was read off a gauge staff, in metres or in feet ([`Reading`]), becomes a height by [`calls::staff`]. A surveyor's
//! Esri ASCII raster becomes a dry site by [`Site::read_raster`], and a site's ground becomes one by [`Site::write_raster`].
//!
//! # Stack
//!
//! What a call takes, in bytes, where the archive is `rt`'s for x86-64 (a thread takes some for itself besides, and so
//! does a loader that binds memcpy and memset only when they are first called):
//!
//! | call | any input | small site | refused |
//! |---|---|---|---|
//! | [`calls::step`] | 596,000 | 41,000 | 1,000 |
//! | [`calls::step_textbook`] | 596,000 | 41,000 | 1,000 |
//! | [`calls::run`] | 201,000 | 16,000 | 1,000 |
//! | [`calls::search`] | 38,000 | 38,000 | 38,000 |
//! | [`calls::search_lists`] | 6,000 | 6,000 | 6,000 |
//! | [`calls::read_sheet`] | 1,000 | 1,000 | 1,000 |
//! | [`calls::write_sheet`] | 1,000 | 1,000 | 1,000 |
//! | [`calls::depth_text`] | 1,000 | 1,000 | 1,000 |
//! | [`calls::staff`] | 1,000 | 1,000 | 1,000 |
//! | [`calls::read_raster`] | 1,000 | 1,000 | 1,000 |
//! | [`calls::write_raster`] | 1,000 | 1,000 | 1,000 |
//!
//! Small is a site whose state has at most 3,136 words, as with 32 columns and 32 rows. Without pumps a step by either engine takes
//! 398,000, on a small site 27,000. Where the state has at most 800 words, as with 16 columns and 16 rows, it takes 12,000, without pumps
//! 9,000. A run takes no more with pumps than without. Refused means with `Card`, `Length` or `Value`, by the sheet reader with `Sheet`
//! too and by the raster reader with `Raster`: the later refusals of a step or a run take what the site takes. A thread that has 640,000
//! bytes does for every call, whatever the input. A [`Site`] takes as much as the calls that it makes, and 1,000 for the list of its pumps.
//!
//! # The archive
//!
//! The archive is made by `./archives water` at the repository's root, and found there by this package's build script; the variable
//! `WATER_LIB_DIR` names the folder of another one.

pub mod calls;
mod card;
mod pump;
mod raster;
pub mod raw;
mod reading;
mod refusal;
mod site;

pub use calls::Tally;
pub use pump::Pump;
pub use raster::Raster;
pub use raw::{Card, Chamber, Window};
pub use reading::Reading;
pub use refusal::Refusal;
pub use site::Site;
