//! Document 01 said a second time, with the requests of document 02 that have landed: the whole product as plain Rust, slow and
//! literal, written from the documents alone.
//!
//! Each call here has the library's shape: it takes the lists as they are lent, leaves in them what the document says, and returns
//! what the document says. Numbers are i128, so that no formula can overflow; the tests compare every answer and every element.

mod bank;
mod grid;
mod play;
mod pumps;
mod raster;
mod run;
mod search;
mod sheet;
mod site;
mod staff;
mod step;
mod text;
mod textbook;
mod turn;

pub use bank::{pairs, still_water, Pair};
pub use play::play;
pub use pumps::pumped;
pub use raster::{read_raster, write_raster};
pub use run::run;
pub use search::{search, search_lists};
pub use sheet::{read_sheet, sheet_size, write_sheet};
pub use site::{cells, check, state_length, sum_of_heights, Site};
pub use staff::staff;
pub use step::{advance_unpumped, carried_parts, own_shares, step, transfer, Carried};
pub use text::depth_text;
pub use textbook::{step_textbook, Terms};
pub use turn::{Turn, TURNS};
