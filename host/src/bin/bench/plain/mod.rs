//! The same work in plain Rust, as a good programmer would write it for speed: safe, on slices, i64 arithmetic, the same checks, three
//! divisions a face (four by the textbook engine), buffers made once and used again. The benchmark measures the library beside it; a test
//! holds it to the model.

mod pumps;
mod raster;
mod search;
mod sheet;
mod site;
mod staff;
mod step;

pub use raster::{read_raster, write_raster};
pub use search::{search, search_lists};
pub use sheet::{read_sheet, write_sheet};
pub use staff::staff;
pub use step::Plain;
