//! The library's calls on slices: typed refusals in the place of numbers, nothing else added.
//!
//! Each takes any input at all. Where one is refused, every lent list is as it was, but for a run that is stopped on its way.
//!
//! A step and a run take `pumps`, a list of words: cell and amount by turns, the cell being its place in the ground's list, row·columns +
//! column ([`Card::cell`]), and the amount -1,000,000 to 1,000,000 micrometres a step, below 0 taken away and above 0 let in. An empty list
//! is no pumps. [`raw::Pump::words`] lends an array of records as such a list; [`crate::Site`] takes pumps by column and row
//! ([`crate::Pump`]).

use crate::raster::{self, Raster};
use crate::raw::{self, Card, Chamber, Window};
use crate::reading::Reading;
use crate::refusal::Refusal;

/// What a run answers.
#[derive(Clone, Copy, Debug, PartialEq, Eq)]
pub struct Tally {
    /// steps done
    pub steps: u32,
    /// why the run stopped before it had done all steps; none if it did them all
    pub reason: Option<Refusal>,
    /// the greatest height in the starting state and each accepted one; pumped heights before a step do not count
    pub top: i32,
    /// what inlets added over the steps done, in micrometres of height ([`Card::volume`] makes a volume of it)
    pub added: u64,
    /// what pumps took over the steps done: the sum of all heights at the end plus `taken` is the sum at the start plus `added`
    pub taken: u64,
}

fn done<T>(number: u32, needed: usize, answer: T) -> Result<T, Refusal> {
    match Refusal::of(number, needed) {
        None => Ok(answer),
        Some(refusal) => Err(refusal),
    }
}

/// One step: fills `next` from `ground`, `state` and `pumps`, which act in the order of their list before it and as part of it. A cell that
/// is dry after it and whose ground is at or above the new surface of the cell beside it is a dry bank: the face between them gets the
/// velocity 0.
///
/// ```
/// use water::{calls, raw::Pump, Card, Refusal};
/// let card = Card { columns: 2, rows: 1, dx: 1_000_000, dy: 1_000_000, dt: 100, steps: 0 };
/// let still = [2_000_000, 1_000_000, 0, 0, 0, 0, 0, 0, 0];
/// let mut next = [0; 9];
/// calls::step(card, &[0, 0], &still, &[], &mut next)?;
/// assert_eq!(next, [2_000_000, 1_000_000, 0, 980_665, 0, 0, 0, 0, 0]);
///
/// let pond = [1_000_000, 0, 0, 0, 0, 0, 0, 0, 0]; // beside a bank 50 cm above it
/// calls::step(card, &[0, 1_500_000], &pond, &[], &mut next)?;
/// assert_eq!(next, pond);
///
/// // two pumps on cell 0 take what is there, 1 m of the 1.5 m that they could; an inlet on cell 1 adds 1 cm
/// calls::step(card, &[0, 0], &pond, &[0, -1_000_000, 0, -500_000, 1, 10_000], &mut next)?;
/// assert_eq!(next, [0, 10_000, 0, -9_806, 0, 0, 0, 0, 0]);
///
/// // an inlet by column and row, as a record
/// let inlet = Pump { cell: card.cell(1, 0).expect("the site has it") as i32, amount: 10_000 };
/// calls::step(card, &[0, 0], &[0; 9], Pump::words(&[inlet]), &mut next)?;
/// assert_eq!(next, [0, 10_000, 0, -9_806, 0, 0, 0, 0, 0]);
///
/// let mut short = [7; 8];
/// assert_eq!(calls::step(card, &[0, 0], &still, &[], &mut short), Err(Refusal::Length));
/// assert_eq!(short, [7; 8]);
/// # Ok::<(), Refusal>(())
/// ```
pub fn step(card: Card, ground: &[i32], state: &[i32], pumps: &[i32], next: &mut [i32]) -> Result<(), Refusal> {
    step_by(raw::water_step, card, ground, state, pumps, next)
}

/// The same step by the textbook engine, for those who read beside the paper of Herbin, Latché, Nasseri and Therme: pressure and ground,
/// its (7c) and (7d), are two terms of each face, which are added and, where there is water, divided by the sum of its two new heights.
/// `include/water.h` has them in full.
///
/// Whatever the input, it answers and leaves in `next` what [`step`] does. That one is the default: it divides once less for each face with
/// water and no dry bank, passes over still water in its velocities too, and is the faster where there is much water.
///
/// ```
/// use water::{calls, Card, Refusal};
/// let card = Card { columns: 2, rows: 1, dx: 1_000_000, dy: 1_000_000, dt: 100, steps: 0 };
/// let mut state = [2_000_000, 1_000_000, 0, 0, 0, 0, 0, 0, 0];
/// for expected in [[2_000_000, 1_000_000, 0, 980_665, 0, 0, 0, 0, 0], [1_803_867, 1_196_133, 0, 1_512_534, 0, 0, 0, 0, 0]] {
///     let (mut next, mut textbook) = ([0; 9], [0; 9]);
///     calls::step(card, &[0, 0], &state, &[], &mut next)?;
///     calls::step_textbook(card, &[0, 0], &state, &[], &mut textbook)?;
///     assert_eq!((next, textbook), (expected, expected));
///     state = textbook;
/// }
///
/// state[3] = 20_000_001;
/// let mut next = [7; 9];
/// assert_eq!(calls::step_textbook(card, &[0, 0], &state, &[], &mut next), Err(Refusal::Value));
/// assert_eq!(next, [7; 9]);
/// # Ok::<(), Refusal>(())
/// ```
pub fn step_textbook(card: Card, ground: &[i32], state: &[i32], pumps: &[i32], next: &mut [i32]) -> Result<(), Refusal> {
    step_by(raw::water_step_textbook, card, ground, state, pumps, next)
}

fn step_by(step: raw::Step, card: Card, ground: &[i32], state: &[i32], pumps: &[i32], next: &mut [i32]) -> Result<(), Refusal> {
    // Safety, here and below: each pointer comes with its own slice's length, and what is filled is borrowed alone.
    let number = unsafe {
        step(
            card,
            ground.as_ptr(),
            ground.len(),
            state.as_ptr(),
            state.len(),
            pumps.as_ptr(),
            pumps.len(),
            next.as_mut_ptr(),
            next.len(),
        )
    };
    done(number, 0, ())
}

/// As many steps as the card wants, on `state` itself, with the same `pumps` before each. `scratch` is as long as `state`, and all zero
/// afterwards.
///
/// Refused at the start (`Card`, `Length`, `Value`) nothing is touched; otherwise `state` holds the last accepted state.
///
/// ```
/// use water::{calls, Card};
/// let card = Card { columns: 2, rows: 1, dx: 1_000_000, dy: 1_000_000, dt: 100, steps: 2 };
/// let mut state = [2_000_000, 1_000_000, 0, 0, 0, 0, 0, 0, 0];
/// let tally = calls::run(card, &[0, 0], &mut state, &[], &mut [0; 9]);
/// assert_eq!((tally.steps, tally.reason, tally.top), (2, None, 2_000_000));
/// assert_eq!(state, [1_803_867, 1_196_133, 0, 1_512_534, 0, 0, 0, 0, 0]);
///
/// // 30 cm are there to take, and no more: 20 cm in the first step, 10 in the second
/// let mut puddle = [300_000, 0, 0, 0, 0, 0, 0, 0, 0];
/// let tally = calls::run(card, &[0, 1_000_000], &mut puddle, &[0, -200_000, 1, 0], &mut [0; 9]);
/// assert_eq!((tally.steps, tally.added, tally.taken), (2, 0, 300_000));
/// assert_eq!(puddle, [0; 9]);
/// ```
pub fn run(card: Card, ground: &[i32], state: &mut [i32], pumps: &[i32], scratch: &mut [i32]) -> Tally {
    let tally = unsafe {
        raw::water_run(
            card,
            ground.as_ptr(),
            ground.len(),
            state.as_mut_ptr(),
            state.len(),
            pumps.as_ptr(),
            pumps.len(),
            scratch.as_mut_ptr(),
            scratch.len(),
        )
    };
    let raw::Tally { steps, reason, top, added, taken } = tally;
    Tally { steps, reason: Refusal::of(reason, 0), top, added, taken }
}

/// The chambers inside `window` whose cell is at least `depth` deep: the first places of `found`, as many as is answered, hold
/// their places in the register, rising.
///
/// ```
/// use water::{calls, Card, Chamber, Refusal, Window};
/// let card = Card { columns: 2, rows: 1, dx: 1_000_000, dy: 1_000_000, dt: 100, steps: 0 };
/// let state = [2_000_000, 1_000_000, 0, 0, 0, 0, 0, 0, 0];
/// let register = [Chamber { x: 1_000_000, y: 0 }, Chamber { x: 999_999, y: 0 }];
/// let all = Window { west: 0.0, south: 0.0, east: 2e6, north: 1e6 };
/// let mut found = [9; 2];
/// assert_eq!(calls::search(card, &[0, 0], &state, &register, all, 1_500_000, &mut found), Ok(1));
/// assert_eq!(found, [1, 9]);
/// let none = calls::search(card, &[0, 0], &state, &register, all, 0, &mut []);
/// assert_eq!(none, Err(Refusal::Room { needed: 2 }));
/// ```
pub fn search(
    card: Card,
    ground: &[i32],
    state: &[i32],
    chambers: &[Chamber],
    window: Window,
    depth: i32,
    found: &mut [u32],
) -> Result<usize, Refusal> {
    let answer = unsafe {
        raw::water_search(
            card,
            ground.as_ptr(),
            ground.len(),
            state.as_ptr(),
            state.len(),
            chambers.as_ptr(),
            chambers.len(),
            window,
            depth,
            found.as_mut_ptr(),
            found.len(),
        )
    };
    done(answer.number, answer.count as usize, answer.count as usize)
}

/// The same search over a register kept as two lists, `xs` and `ys`.
#[allow(clippy::too_many_arguments)]
pub fn search_lists(
    card: Card,
    ground: &[i32],
    state: &[i32],
    xs: &[i64],
    ys: &[i64],
    window: Window,
    depth: i32,
    found: &mut [u32],
) -> Result<usize, Refusal> {
    let answer = unsafe {
        raw::water_search_lists(
            card,
            ground.as_ptr(),
            ground.len(),
            state.as_ptr(),
            state.len(),
            xs.as_ptr(),
            xs.len(),
            ys.as_ptr(),
            ys.len(),
            window,
            depth,
            found.as_mut_ptr(),
            found.len(),
        )
    };
    done(answer.number, answer.count as usize, answer.count as usize)
}

/// Reads a sheet into `ground` and `state`, which have the lengths that the sheet's columns and rows ask for.
pub fn read_sheet(sheet: &[u8], ground: &mut [i32], state: &mut [i32]) -> Result<Card, Refusal> {
    let heard = unsafe {
        raw::water_read_sheet(sheet.as_ptr(), sheet.len(), ground.as_mut_ptr(), ground.len(), state.as_mut_ptr(), state.len())
    };
    done(heard.number, 0, heard.card)
}

/// Writes a sheet to the front of `bytes`, and answers its size.
///
/// ```
/// use water::{calls, Card, Refusal};
/// let card = Card { columns: 1, rows: 1, dx: 1_000_000, dy: 1_000_000, dt: 100, steps: 1 };
/// let mut bytes = [0; 43];
/// assert_eq!(calls::write_sheet(card, &[0], &[7, 0, 0, 0, 0], &mut bytes), Ok(43));
/// assert_eq!(bytes[..7], [0, 0, 0, 43, 1, 1, 1]);
/// assert_eq!(calls::write_sheet(card, &[0], &[7, 0, 0, 0, 0], &mut bytes[1..]), Err(Refusal::Room { needed: 43 }));
/// ```
pub fn write_sheet(card: Card, ground: &[i32], state: &[i32], bytes: &mut [u8]) -> Result<usize, Refusal> {
    let wrote = unsafe {
        raw::water_write_sheet(card, ground.as_ptr(), ground.len(), state.as_ptr(), state.len(), bytes.as_mut_ptr(), bytes.len())
    };
    // a card that is out of range is refused with 1 before its size is asked for
    let needed = if wrote.number == 8 { card.sheet_size() } else { 0 };
    done(wrote.number, needed, wrote.size as usize)
}

/// The depth text of a height, at the front of `scratch`; none if the height is out of range or `scratch` is shorter than the text.
/// Seven bytes are always enough.
///
/// ```
/// let mut scratch = *b"-------";
/// assert_eq!(water::calls::depth_text(15_000, &mut scratch), Some("2 cm"));
/// assert_eq!(&scratch, b"2 cm---");
/// assert_eq!(water::calls::depth_text(0, &mut scratch), Some("dry"));
/// assert_eq!(water::calls::depth_text(-1, &mut scratch), None);
/// ```
pub fn depth_text(height: i32, scratch: &mut [u8]) -> Option<&str> {
    let length = unsafe { raw::water_depth_text(height, scratch.as_mut_ptr(), scratch.len()) };
    let text = &scratch[..length];
    if text.is_empty() {
        None
    } else {
        Some(std::str::from_utf8(text).expect("a depth text is plain ASCII"))
    }
}

/// The height of a staff reading in micrometres, 0 to 50,000,000; none where nothing was read.
///
/// Metres are multiplied by 1,000,000 and feet by 304,800. The product is rounded once, as floats are, and then goes to the nearest whole
/// micrometre, halves up. `-0.0` is 0.
///
/// Refused with [`Refusal::Value`]: a float that is not finite or is below 0, and a product above 50,000,000, even if it would go down to
/// that.
///
/// ```
/// use water::{calls, Reading, Refusal};
/// assert_eq!(calls::staff(Reading::Metres(1.5)), Ok(Some(1_500_000)));
/// assert_eq!(calls::staff(Reading::Feet(1.0)), Ok(Some(304_800)));
/// assert_eq!(calls::staff(Reading::Nothing), Ok(None));
///
/// // 7,812.5 µm; and a float that is not exactly half a micrometre, whose product rounds to exactly 0.5
/// assert_eq!(calls::staff(Reading::Metres(1.0 / 128.0)), Ok(Some(7_813)));
/// assert_eq!(calls::staff(Reading::Metres(0.000_000_5)), Ok(Some(1)));
///
/// assert_eq!(calls::staff(Reading::Metres(-0.0)), Ok(Some(0)));
/// assert_eq!(calls::staff(Reading::Metres(-0.001)), Err(Refusal::Value));
/// assert_eq!(calls::staff(Reading::Metres(50.000_000_4)), Err(Refusal::Value));
/// assert_eq!(calls::staff(Reading::Feet(f64::NAN)), Err(Refusal::Value));
/// ```
pub fn staff(reading: Reading) -> Result<Option<i32>, Refusal> {
    let (kind, value) = reading.kind_and_value();
    // Safety: nothing is lent.
    let raw::Staff { number, read, height } = unsafe { raw::water_staff(kind, value) };
    done(number, 0, (read == 1).then_some(height))
}

/// Reads a raster into `ground`, which has the length that its columns and rows ask for ([`Raster::ground_length`]). The text has its
/// northern row first; rows of the ground run south to north, as everywhere.
///
/// Its words are parted by blanks, tabs, line feeds and carriage returns. Keys stand in the order below, in any letter case, and
/// `NODATA_value` may be missing. `ncols` and `nrows` are 1 to 12 digits; all else are decimals, an optional minus, 1 to 12 digits, and
/// optionally a point and 1 to 6 digits, exact to the micrometre. The corner is looked at as two decimals and dropped.
///
/// Refused, in this order: [`Refusal::Raster`] where the text is no such raster or has another count of values; [`Refusal::Card`] where
/// columns, rows or cellsize is out of range; [`Refusal::Length`]; [`Refusal::Value`] for a height that is out of range or is the no-data
/// value, compared as numbers.
///
/// ```
/// use water::{calls, Raster, Refusal};
/// let text = b"ncols 2\nnrows 2\nxllcorner 431000.5\nyllcorner -12\ncellsize 0.5\nNODATA_value -9999\n1.25 -0.000001\n0 12.345678\n";
/// let mut ground = [7; 4];
/// assert_eq!(calls::read_raster(text, &mut ground), Ok(Raster { columns: 2, rows: 2, side: 500_000 }));
/// assert_eq!(ground, [0, 12_345_678, 1_250_000, -1]);
///
/// let mut ground = [7; 4];
/// assert_eq!(calls::read_raster(&text[1..], &mut ground), Err(Refusal::Raster));
/// assert_eq!(calls::read_raster(text, &mut ground[1..]), Err(Refusal::Length));
/// let missing = String::from_utf8_lossy(text).replace("1.25", "-9999.0");
/// assert_eq!(calls::read_raster(missing.as_bytes(), &mut ground), Err(Refusal::Value));
/// assert_eq!(ground, [7; 4]);
/// ```
pub fn read_raster(text: &[u8], ground: &mut [i32]) -> Result<Raster, Refusal> {
    let raw::Raster { number, columns, rows, side } =
        unsafe { raw::water_read_raster(text.as_ptr(), text.len(), ground.as_mut_ptr(), ground.len()) };
    done(number, 0, Raster { columns, rows, side })
}

/// Writes the ground of a site with equal sides as a raster to the front of `text`, and answers its size. [`Card::raster_room`] is always
/// enough room. What is written reads back as the same ground, columns, rows and side.
///
/// Refused with [`Refusal::Length`] also where the sides differ.
///
/// ```
/// use water::{calls, Card, Refusal};
/// let card = Card { columns: 2, rows: 1, dx: 1_000_000, dy: 1_000_000, dt: 100, steps: 0 };
/// let mut text = vec![0; card.raster_room()];
/// let size = calls::write_raster(card, &[-500_000, 12_345_678], &mut text)?;
/// assert_eq!(&text[..size], b"ncols 2\nnrows 1\nxllcorner 0\nyllcorner 0\ncellsize 1.000000\n-0.500000 12.345678\n");
///
/// assert_eq!(calls::write_raster(card, &[0, 0], &mut text[..75]), Err(Refusal::Room { needed: 76 }));
/// assert_eq!(calls::write_raster(Card { dy: 2_000_000, ..card }, &[0, 0], &mut text), Err(Refusal::Length));
/// # Ok::<(), Refusal>(())
/// ```
pub fn write_raster(card: Card, ground: &[i32], text: &mut [u8]) -> Result<usize, Refusal> {
    let wrote = unsafe { raw::water_write_raster(card, ground.as_ptr(), ground.len(), text.as_mut_ptr(), text.len()) };
    // what is refused with 8 is in range
    let needed = if wrote.number == 8 { raster::size(&card, ground) } else { 0 };
    done(wrote.number, needed, wrote.size as usize)
}
