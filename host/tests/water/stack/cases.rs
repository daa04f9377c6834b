//! The calls and the sites whose stack is looked at. Each call has its lists made beforehand, so that it alone is on the stack.

use crate::wild::Wild;
use water::raw::{Card, Chamber, Window};
use water::{calls, Pump, Reading, Refusal, Site};

pub type Call = Box<dyn FnMut() -> Result<(), Refusal> + Send>;

/// A site of so many columns and rows, with water that starts to move.
pub fn site(side: u32) -> Wild {
    let mut site = Wild::empty(Card { columns: side, rows: side, dx: 1_000_000, dy: 1_000_000, dt: 20, steps: 3 });
    let cells = site.ground.len();
    for (k, height) in site.state[..cells].iter_mut().enumerate() {
        *height = 1_000_000 + k as i32;
    }
    site
}

/// One that breaks the step limit: refusal 4.
pub fn too_fast(side: u32) -> Wild {
    let mut site = site(side);
    site.card.dt = 1_000;
    let face = site.east(1, 0);
    site.state[face] = 20_000_000;
    site
}

/// One whose last wall is not still: refusal 3.
pub fn bad(side: u32) -> Wild {
    let mut site = site(side);
    *site.state.last_mut().unwrap() = 1;
    site
}

/// One whose time step is 0: refusal 1, though its lists are right.
pub fn no_time(side: u32) -> Wild {
    let mut site = site(side);
    site.card.dt = 0;
    site
}

/// One whose ground is a word too short: refusal 2.
pub fn short(side: u32) -> Wild {
    let mut site = site(side);
    site.ground.pop();
    site
}

/// An empty card and no lists.
pub fn nothing() -> Wild {
    Wild { card: Card::default(), ground: vec![], state: vec![] }
}

/// One that is filled to the top: refusal 5 where an inlet works on its last cell.
pub fn full(side: u32) -> Wild {
    let mut site = site(side);
    let cells = site.ground.len();
    site.state[..cells].fill(50_000_000);
    site
}

/// So many pumps on the last cell, by turns an inlet and a pump that takes; each word but the last of an odd list is right.
pub fn pumps(site: &Wild, words: usize) -> Vec<i32> {
    let last = site.ground.len() as i32 - 1;
    let mut pumps: Vec<i32> = (0..words / 2).flat_map(|k| [last, if k % 2 == 0 { 1_000 } else { -900 }]).collect();
    pumps.resize(words, 0);
    pumps
}

pub fn step(site: Wild, pumps: Vec<i32>) -> Call {
    let mut next = vec![0; site.state.len()];
    Box::new(move || calls::step(site.card, &site.ground, &site.state, &pumps, &mut next))
}

pub fn step_textbook(site: Wild, pumps: Vec<i32>) -> Call {
    let mut next = vec![0; site.state.len()];
    Box::new(move || calls::step_textbook(site.card, &site.ground, &site.state, &pumps, &mut next))
}

pub fn run(mut site: Wild, pumps: Vec<i32>) -> Call {
    let mut scratch = vec![0; site.state.len()];
    Box::new(move || {
        let tally = calls::run(site.card, &site.ground, &mut site.state, &pumps, &mut scratch);
        tally.reason.map_or(Ok(()), Err)
    })
}

/// The step of a site that owns its lists, with so many pumps.
pub fn site_step(side: u32, pumps: usize) -> Call {
    let Wild { card, ground, state } = site(side);
    let mut site = Site::new(card, ground, state).expect("a good site");
    let pumps = vec![Pump { column: side - 1, row: 0, amount: 5 }; pumps];
    Box::new(move || site.step_with(&pumps))
}

const EVERYWHERE: Window = Window { west: 0.0, south: 0.0, east: 128e6, north: 128e6 };

fn register(count: i64) -> Vec<Chamber> {
    (0..count).map(|k| Chamber { x: 8_000 * k, y: 7_000 * k }).collect()
}

pub fn search(site: Wild, count: i64, room: usize) -> Call {
    let chambers = register(count);
    let mut found = vec![0; room];
    Box::new(move || calls::search(site.card, &site.ground, &site.state, &chambers, EVERYWHERE, 0, &mut found).map(drop))
}

pub fn search_lists(site: Wild, count: i64, room: usize) -> Call {
    let (xs, ys): (Vec<i64>, Vec<i64>) = register(count).iter().map(|chamber| (chamber.x, chamber.y)).unzip();
    let mut found = vec![0; room];
    Box::new(move || calls::search_lists(site.card, &site.ground, &site.state, &xs, &ys, EVERYWHERE, 0, &mut found).map(drop))
}

/// The reader, on the sheet of the site as it would be with a ground of the right length. The time step is the card's, even where no sheet would have it.
pub fn read(mut site: Wild) -> Call {
    let words = std::iter::repeat(&0).take(site.card.cells() - site.ground.len()).chain(&site.ground).chain(&site.state);
    let mut sheet = vec![0; site.card.sheet_size()];
    let still = self::site(site.card.columns);
    if calls::write_sheet(still.card, &still.ground, &still.state, &mut sheet).is_ok() {
        let words: Vec<u8> = words.flat_map(|word| word.to_be_bytes()).collect();
        sheet[19..].copy_from_slice(&words);
        sheet[15..17].copy_from_slice(&(site.card.dt as u16).to_be_bytes());
    }
    Box::new(move || calls::read_sheet(&sheet, &mut site.ground, &mut site.state).map(drop))
}

pub fn write(site: Wild) -> Call {
    let size = site.card.sheet_size();
    write_into(site, size)
}

pub fn write_into(site: Wild, room: usize) -> Call {
    let mut bytes = vec![0; room];
    Box::new(move || calls::write_sheet(site.card, &site.ground, &site.state, &mut bytes).map(drop))
}

/// The text of a raster of so many columns and rows, with the longest values there are and a no-data value.
pub fn raster(side: usize) -> String {
    let head = format!("ncols {side}\nnrows {side}\nxllcorner 0\nyllcorner 0\ncellsize 1\nNODATA_value -9999\n");
    head + &"-000000000049.999999\r\n".repeat(side * side)
}

/// The raster reader, on a list of so many words.
pub fn read_raster(text: String, length: usize) -> Call {
    let mut ground = vec![0; length];
    Box::new(move || calls::read_raster(text.as_bytes(), &mut ground).map(drop))
}

/// A site as deep as its raster has the longest values.
pub fn deep(side: u32) -> Wild {
    let mut site = site(side);
    site.ground.fill(-49_999_999);
    site
}

/// One whose last ground level is out of range: refusal 3.
pub fn too_deep(side: u32) -> Wild {
    let mut site = deep(side);
    *site.ground.last_mut().unwrap() = -50_000_001;
    site
}

/// The raster writer, into room for any ground of the site.
pub fn write_raster(site: Wild) -> Call {
    let room = site.card.raster_room();
    write_raster_into(site, room)
}

pub fn write_raster_into(site: Wild, room: usize) -> Call {
    let mut text = vec![0; room];
    Box::new(move || calls::write_raster(site.card, &site.ground, &mut text).map(drop))
}

/// The depth text; none of a height counts as the bad value that it is.
pub fn text(height: i32) -> Call {
    let mut scratch = [0; 7];
    Box::new(move || calls::depth_text(height, &mut scratch).map(drop).ok_or(Refusal::Value))
}

pub fn staff(reading: Reading) -> Call {
    Box::new(move || calls::staff(reading).map(drop))
}
