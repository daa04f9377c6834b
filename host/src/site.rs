//! A site that owns its lists.

use crate::calls::{self, Tally};
use crate::card::SHEET_HEAD;
use crate::pump::{Pump, Words};
use crate::raster::Raster;
use crate::raw::{Card, Chamber, Window};
use crate::refusal::Refusal;
use std::ops::ControlFlow;

/// A site that passes the first three checks: its card, its ground and the state it is in.
///
/// ```
/// use water::{Card, Site};
/// let card = Card { columns: 2, rows: 1, dx: 1_000_000, dy: 1_000_000, dt: 100, steps: 2 };
/// let mut site = Site::still(card, vec![0, 0], &[2_000_000, 1_000_000])?;
/// let tally = site.run();
/// assert_eq!((tally.steps, tally.reason, tally.top), (2, None, 2_000_000));
/// assert_eq!(site.heights(), [1_803_867, 1_196_133]);
/// assert_eq!(site.depth_text(0, 0), "180 cm");
/// # Ok::<(), water::Refusal>(())
/// ```
#[derive(Clone, Debug)]
pub struct Site {
    card: Card,
    ground: Vec<i32>,
    state: Vec<i32>,
    // as long as the state: a step's next state, a run's scratch
    spare: Vec<i32>,
}

/// Equal sites have the same card, ground and state; what a step or a run has left in the spare list is no part of a site.
impl PartialEq for Site {
    fn eq(&self, other: &Site) -> bool {
        self.card == other.card && self.ground == other.ground && self.state == other.state
    }
}

impl Eq for Site {}

impl Site {
    /// A site with the given state: heights, eastward velocities, northward velocities. Refused where the card, a length or a value is wrong:
    /// [`Card`] and [`Refusal::Value`] have the ranges, [`Card::cells`] and [`Card::state_length`] the lengths. A wall's velocity is 0.
    ///
    /// ```
    /// use water::{Card, Refusal, Site};
    /// let card = Card { columns: 1, rows: 1, dx: 1_000_000, dy: 1_000_000, dt: 100, steps: 0 };
    /// assert!(Site::new(card, vec![0], vec![7, 0, 0, 0, 0]).is_ok());
    /// assert_eq!(Site::new(card, vec![0], vec![7, 0, 0, 0, 1]), Err(Refusal::Value)); // a wall that moves
    /// assert_eq!(Site::new(card, vec![0], vec![7]), Err(Refusal::Length));
    /// assert_eq!(Site::new(Card { columns: 129, ..card }, vec![0], vec![7]), Err(Refusal::Card));
    /// ```
    pub fn new(card: Card, ground: Vec<i32>, state: Vec<i32>) -> Result<Site, Refusal> {
        check(card, &ground, &state)?;
        let spare = vec![0; state.len()];
        Ok(Site { card, ground, state, spare })
    }

    /// A site whose water does not move yet.
    pub fn still(card: Card, ground: Vec<i32>, heights: &[i32]) -> Result<Site, Refusal> {
        // a card out of range is refused before its sizes are believed
        if let Err(Refusal::Card) = check(card, &ground, heights) {
            return Err(Refusal::Card);
        }
        let mut state = heights.to_vec();
        state.resize(heights.len() + card.eastward_faces() + card.northward_faces(), 0);
        Site::new(card, ground, state)
    }

    /// The site of a sheet.
    ///
    /// ```
    /// # use water::{Card, Refusal, Site};
    /// # let card = Card { columns: 2, rows: 1, dx: 1_000_000, dy: 1_000_000, dt: 100, steps: 2 };
    /// let site = Site::still(card, vec![0, 0], &[2_000_000, 1_000_000])?;
    /// let sheet = site.write_sheet();
    /// assert_eq!(sheet.len(), 63);
    /// assert_eq!(Site::read_sheet(&sheet)?, site);
    /// assert_eq!(Site::read_sheet(&sheet[1..]), Err(Refusal::Sheet));
    /// # Ok::<(), Refusal>(())
    /// ```
    pub fn read_sheet(sheet: &[u8]) -> Result<Site, Refusal> {
        // the header's size decides how long the lists are; a sheet too short for one is refused with 9 whatever is lent
        let size = |place: usize| if sheet.len() < SHEET_HEAD { 0 } else { u32::from(sheet[place]) };
        let sizes = Card { columns: size(5), rows: size(6), ..Card::default() };
        let mut ground = vec![0; sizes.cells()];
        let mut state = vec![0; sizes.state_length()];
        let card = calls::read_sheet(sheet, &mut ground, &mut state)?;
        let spare = vec![0; state.len()];
        Ok(Site { card, ground, state, spare })
    }

    /// The site's sheet.
    pub fn write_sheet(&self) -> Vec<u8> {
        let mut bytes = vec![0; self.card.sheet_size()];
        calls::write_sheet(self.card, &self.ground, &self.state, &mut bytes).expect("a site is right, and has room");
        bytes
    }

    /// The site of a surveyor's raster ([`calls::read_raster`] says what that is), dry and still, with a time step in ms and steps wanted.
    /// Refused as the raster is, and then with [`Refusal::Card`] where `dt` is not 1 to 1,000 or `steps` is over 10,000.
    ///
    /// ```
    /// # use water::{Card, Refusal, Site};
    /// let text = b"ncols 2 nrows 2 xllcorner 0 yllcorner 0 cellsize 1  0.15 0.14  0.02 0";
    /// let site = Site::read_raster(text, 100, 20)?;
    /// assert_eq!(site.card(), Card { columns: 2, rows: 2, dx: 1_000_000, dy: 1_000_000, dt: 100, steps: 20 });
    /// assert_eq!((site.ground(), site.heights()), (&[20_000, 0, 150_000, 140_000][..], &[0; 4][..]));
    ///
    /// // water over it: 30 cm on every cell
    /// let mut flooded = Site::still(site.card(), site.ground().to_vec(), &[300_000; 4])?;
    /// assert_eq!(flooded.run().steps, 20);
    ///
    /// assert_eq!(Site::read_raster(b"ncols 2", 100, 20), Err(Refusal::Raster));
    /// assert_eq!(Site::read_raster(text, 0, 20), Err(Refusal::Card));
    /// # Ok::<(), Refusal>(())
    /// ```
    pub fn read_raster(text: &[u8], dt: u32, steps: u32) -> Result<Site, Refusal> {
        let mut ground = vec![0; Raster::ground_length(text)];
        let raster = calls::read_raster(text, &mut ground)?;
        let dry = vec![0; ground.len()];
        Site::still(raster.card(dt, steps), ground, &dry)
    }

    /// The site's ground as a raster, which reads back as the same ground, columns, rows and side. Refused with [`Refusal::Length`] where
    /// the sides of the site differ: a raster has one.
    ///
    /// ```
    /// # use water::{Card, Refusal, Site};
    /// let card = Card { columns: 2, rows: 1, dx: 500_000, dy: 500_000, dt: 100, steps: 2 };
    /// let site = Site::still(card, vec![0, -1], &[0, 0])?;
    /// let text = site.write_raster()?;
    /// assert_eq!(text, b"ncols 2\nnrows 1\nxllcorner 0\nyllcorner 0\ncellsize 0.500000\n0.000000 -0.000001\n");
    /// assert_eq!(Site::read_raster(&text, 100, 2)?, site);
    ///
    /// let oblong = Site::still(Card { dy: 400_000, ..card }, vec![0, -1], &[0, 0])?;
    /// assert_eq!(oblong.write_raster(), Err(Refusal::Length));
    /// # Ok::<(), Refusal>(())
    /// ```
    pub fn write_raster(&self) -> Result<Vec<u8>, Refusal> {
        let mut text = vec![0; self.card.raster_room()];
        let size = calls::write_raster(self.card, &self.ground, &mut text)?;
        text.truncate(size);
        Ok(text)
    }

    /// Another time step, in ms, and other steps wanted, from here on: for the next stage of a run, with other pumps, or in shorter steps
    /// after [`Refusal::StepLimit`]. Refused with [`Refusal::Card`], the site is as it was, where `dt` is not 1 to 1,000 or `steps` is over
    /// 10,000. Heights, velocities and ground stay. A pump's amount is what it moves in one step: with another time step it moves as much a
    /// second where its amount changes with it.
    ///
    /// ```
    /// # use water::{Card, Pump, Refusal, Site};
    /// let card = Card { columns: 2, rows: 1, dx: 1_000_000, dy: 1_000_000, dt: 100, steps: 20 };
    /// let mut site = Site::still(card, vec![0, 0], &[200_000, 200_000])?;
    /// let pump = Pump { column: 0, row: 0, amount: -4_000 };
    /// let first = site.run_with(&[pump]); // two seconds with one pump
    ///
    /// site.set_time(50, 40)?; // two more with two, in steps half as long
    /// let half = Pump { amount: -2_000, ..pump };
    /// let second = site.run_with(&[half, Pump { column: 1, ..half }]);
    /// assert_eq!((first.taken, second.taken), (80_000, 160_000));
    ///
    /// assert_eq!(site.set_time(50, 10_001), Err(Refusal::Card));
    /// assert_eq!((site.card().dt, site.card().steps), (50, 40));
    /// # Ok::<(), Refusal>(())
    /// ```
    pub fn set_time(&mut self, dt: u32, steps: u32) -> Result<(), Refusal> {
        let card = Card { dt, steps, ..self.card };
        // the library says what is in range; all else of the site passes
        check(card, &self.ground, &self.state)?;
        self.card = card;
        Ok(())
    }

    /// One step. Refused, the site is as it was.
    ///
    /// ```
    /// # use water::{Card, Refusal, Site};
    /// # let card = Card { columns: 2, rows: 1, dx: 1_000_000, dy: 1_000_000, dt: 100, steps: 2 };
    /// let mut site = Site::new(card, vec![0, 0], vec![2_000_000, 1_000_000, 0, 10_000_001, 0, 0, 0, 0, 0])?;
    /// assert_eq!(site.step(), Err(Refusal::StepLimit));
    /// assert_eq!(site.heights(), [2_000_000, 1_000_000]);
    /// # Ok::<(), Refusal>(())
    /// ```
    pub fn step(&mut self) -> Result<(), Refusal> {
        self.step_with(&[])
    }

    /// One step with pumps, which act before it, in the order of their list. Refused, the site is as it was: nothing was added or taken.
    ///
    /// A step does not tell what it added and took. A run of one step is the same step and does: [`Site::set_time`] to 1 step and
    /// [`Site::run_with`], or [`Site::run_in_slices_with`] in slices of 1, which tells the totals so far after each.
    ///
    /// ```
    /// # use water::{Card, Pump, Refusal, Site};
    /// # let card = Card { columns: 2, rows: 1, dx: 1_000_000, dy: 1_000_000, dt: 100, steps: 2 };
    /// let mut site = Site::still(card, vec![0, 0], &[300_000, 0])?;
    /// let pump = Pump { column: 0, row: 0, amount: -500_000 }; // takes the 30 cm that are there
    /// let inlet = Pump { column: 1, row: 0, amount: 20_000 };
    /// site.step_with(&[pump, inlet])?;
    /// assert_eq!(site.heights(), [0, 20_000]);
    ///
    /// // the site has no column 2, and its cell is no other's
    /// assert_eq!(site.step_with(&[Pump { column: 2, ..pump }]), Err(Refusal::Value));
    /// assert_eq!(site.step_with(&[pump; 65]), Err(Refusal::Card));
    /// assert_eq!(site.heights(), [0, 20_000]);
    /// # Ok::<(), Refusal>(())
    /// ```
    pub fn step_with(&mut self, pumps: &[Pump]) -> Result<(), Refusal> {
        let words = Words::of(&self.card, pumps);
        let answer = calls::step(self.card, &self.ground, &self.state, words.lent(), &mut self.spare);
        self.take_over(answer)
    }

    /// One step by the textbook engine ([`calls::step_textbook`]): the site that [`Site::step`] makes, and the same refusals.
    ///
    /// ```
    /// # use water::{Card, Refusal, Site};
    /// # let card = Card { columns: 2, rows: 1, dx: 1_000_000, dy: 1_000_000, dt: 100, steps: 2 };
    /// let mut site = Site::still(card, vec![0, 0], &[2_000_000, 1_000_000])?;
    /// let mut other = site.clone();
    /// site.step()?;
    /// other.step_textbook()?;
    /// assert_eq!(site.eastward(), [0, 980_665, 0]);
    /// assert_eq!(other, site);
    /// # Ok::<(), Refusal>(())
    /// ```
    pub fn step_textbook(&mut self) -> Result<(), Refusal> {
        self.step_textbook_with(&[])
    }

    /// One step with pumps by the textbook engine: the site that [`Site::step_with`] makes, and the same refusals.
    ///
    /// ```
    /// # use water::{Card, Pump, Refusal, Site};
    /// # let card = Card { columns: 2, rows: 1, dx: 1_000_000, dy: 1_000_000, dt: 100, steps: 2 };
    /// let mut site = Site::still(card, vec![0, 0], &[2_000_000, 1_000_000])?;
    /// let mut other = site.clone();
    /// let inlet = Pump { column: 1, row: 0, amount: 500_000 };
    /// site.step_with(&[inlet])?;
    /// other.step_textbook_with(&[inlet])?;
    /// assert_eq!(site.eastward(), [0, 490_332, 0]);
    /// assert_eq!(other, site);
    /// # Ok::<(), Refusal>(())
    /// ```
    pub fn step_textbook_with(&mut self, pumps: &[Pump]) -> Result<(), Refusal> {
        let words = Words::of(&self.card, pumps);
        let answer = calls::step_textbook(self.card, &self.ground, &self.state, words.lent(), &mut self.spare);
        self.take_over(answer)
    }

    /// Takes the next state of an accepted step over from the spare list.
    fn take_over(&mut self, answer: Result<(), Refusal>) -> Result<(), Refusal> {
        if answer.is_ok() {
            std::mem::swap(&mut self.state, &mut self.spare);
        }
        answer
    }

    /// As many steps as the card wants.
    pub fn run(&mut self) -> Tally {
        self.run_with(&[])
    }

    /// As many steps as the card wants, with the same pumps before each. The tally says what was added and what was taken over the steps
    /// done: the sum of all heights at the end plus `taken` is the sum at the start plus `added`, whatever the reason.
    ///
    /// ```
    /// # use water::{Card, Pump, Refusal, Site};
    /// let card = Card { columns: 2, rows: 1, dx: 1_000_000, dy: 1_000_000, dt: 100, steps: 40 };
    /// let mut site = Site::still(card, vec![0, 0], &[200_000, 200_000])?;
    /// let first = site.volume();
    /// let pump = Pump { column: 0, row: 0, amount: -20_000 };
    /// let inlet = Pump { column: 1, row: 0, amount: 5_000 };
    /// let tally = site.run_with(&[pump, inlet]);
    /// assert_eq!((tally.steps, tally.reason, tally.added), (40, None, 200_000));
    /// assert!(tally.taken <= 800_000); // a cell that is dry at the pump's turn has nothing to take
    /// assert_eq!(site.volume() + card.volume(tally.taken), first + card.volume(tally.added));
    /// # Ok::<(), Refusal>(())
    /// ```
    pub fn run_with(&mut self, pumps: &[Pump]) -> Tally {
        self.run_steps(self.card.steps, Words::of(&self.card, pumps).lent())
    }

    /// As many steps as the card wants, at most `slice` at a time, with a look at the site and the tally so far after each slice
    /// that did all its steps. The look may break the run off. A run that is not broken off ends as [`Site::run`] does, to the
    /// last micrometre.
    ///
    /// ```
    /// use std::ops::ControlFlow;
    /// # use water::{Card, Refusal, Site};
    /// let card = Card { columns: 2, rows: 1, dx: 1_000_000, dy: 1_000_000, dt: 100, steps: 25 };
    /// let mut whole = Site::still(card, vec![0, 0], &[2_000_000, 1_000_000])?;
    /// let mut sliced = whole.clone();
    /// let mut shown = Vec::new();
    /// let tally = sliced.run_in_slices(10, |site, tally| {
    ///     shown.push((tally.steps, site.height(0, 0)));
    ///     ControlFlow::Continue(())
    /// });
    /// assert_eq!(tally, whole.run());
    /// assert_eq!(sliced, whole);
    /// assert_eq!(shown.len(), 3); // after 10, 20 and 25 steps
    /// # Ok::<(), Refusal>(())
    /// ```
    ///
    /// # Panics
    ///
    /// If `slice` is 0.
    pub fn run_in_slices(&mut self, slice: u32, look: impl FnMut(&Site, &Tally) -> ControlFlow<()>) -> Tally {
        self.run_in_slices_with(&[], slice, look)
    }

    /// [`Site::run_in_slices`] with pumps: what is added and taken is summed over the slices. A run that is not broken off ends as
    /// [`Site::run_with`] does.
    ///
    /// ```
    /// use std::ops::ControlFlow;
    /// # use water::{Card, Pump, Refusal, Site};
    /// let card = Card { columns: 2, rows: 1, dx: 1_000_000, dy: 1_000_000, dt: 100, steps: 1_000 };
    /// let mut site = Site::still(card, vec![0, 0], &[200_000, 200_000])?;
    /// let pump = Pump { column: 0, row: 0, amount: -2_000 };
    /// let tally = site.run_in_slices_with(&[pump], 10, |site, so_far| {
    ///     println!("{} µm taken, {} left", so_far.taken, site.height(0, 0));
    ///     if so_far.taken < 300_000 { ControlFlow::Continue(()) } else { ControlFlow::Break(()) }
    /// });
    /// assert_eq!((tally.steps, tally.taken), (150, 300_000));
    /// # Ok::<(), Refusal>(())
    /// ```
    ///
    /// # Panics
    ///
    /// If `slice` is 0.
    pub fn run_in_slices_with(
        &mut self,
        pumps: &[Pump],
        slice: u32,
        mut look: impl FnMut(&Site, &Tally) -> ControlFlow<()>,
    ) -> Tally {
        assert!(slice > 0, "a slice has at least one step");
        let words = Words::of(&self.card, pumps);
        let mut tally = self.run_steps(0, words.lent());
        while tally.reason.is_none() && tally.steps < self.card.steps {
            let part = self.run_steps(slice.min(self.card.steps - tally.steps), words.lent());
            tally = Tally {
                steps: tally.steps + part.steps,
                reason: part.reason,
                top: tally.top.max(part.top),
                added: tally.added + part.added,
                taken: tally.taken + part.taken,
            };
            if tally.reason.is_none() && look(self, &tally).is_break() {
                break;
            }
        }
        tally
    }

    fn run_steps(&mut self, steps: u32, pumps: &[i32]) -> Tally {
        calls::run(Card { steps, ..self.card }, &self.ground, &mut self.state, pumps, &mut self.spare)
    }

    /// The places in the register, rising, of the chambers inside the window whose cell is at least `depth` deep.
    ///
    /// ```
    /// # use water::{Card, Chamber, Refusal, Site, Window};
    /// # let card = Card { columns: 2, rows: 1, dx: 1_000_000, dy: 1_000_000, dt: 100, steps: 2 };
    /// let site = Site::still(card, vec![0, 0], &[2_000_000, 1_000_000])?;
    /// let register = [Chamber { x: 500_000, y: 500_000 }, Chamber { x: 1_000_000, y: 500_000 }];
    /// let window = Window { west: 0.0, south: 0.0, east: 1_000_000.0, north: 1_000_000.0 };
    /// assert_eq!(site.search(&register, window, 1_000_000)?, [0, 1]);
    /// assert_eq!(site.search(&register, window, 1_000_001)?, [0]);
    /// assert_eq!(site.search(&register, Window { west: 1_000_000.25, ..window }, 0)?, []);
    /// assert_eq!(site.search(&register, Window { west: f64::NAN, ..window }, 0), Err(Refusal::Value));
    /// # Ok::<(), Refusal>(())
    /// ```
    pub fn search(&self, chambers: &[Chamber], window: Window, depth: i32) -> Result<Vec<u32>, Refusal> {
        let mut found = vec![0; chambers.len()];
        let count = calls::search(self.card, &self.ground, &self.state, chambers, window, depth, &mut found)?;
        found.truncate(count);
        Ok(found)
    }

    /// The same search over a register kept as two lists.
    pub fn search_lists(&self, xs: &[i64], ys: &[i64], window: Window, depth: i32) -> Result<Vec<u32>, Refusal> {
        let mut found = vec![0; xs.len()];
        let count = calls::search_lists(self.card, &self.ground, &self.state, xs, ys, window, depth, &mut found)?;
        found.truncate(count);
        Ok(found)
    }

    pub fn card(&self) -> Card {
        self.card
    }

    pub fn ground(&self) -> &[i32] {
        &self.ground
    }

    /// The whole state: heights, eastward velocities, northward velocities.
    pub fn state(&self) -> &[i32] {
        &self.state
    }

    pub fn heights(&self) -> &[i32] {
        &self.state[..self.card.cells()]
    }

    pub fn eastward(&self) -> &[i32] {
        &self.state[self.card.cells()..][..self.card.eastward_faces()]
    }

    pub fn northward(&self) -> &[i32] {
        &self.state[self.card.cells() + self.card.eastward_faces()..]
    }

    /// The height of the cell in a column, counted from the west, and a row, counted from the south.
    ///
    /// # Panics
    ///
    /// If the site has no such column or row.
    pub fn height(&self, column: u32, row: u32) -> i32 {
        let Card { columns, rows, .. } = self.card;
        let cell = self.card.cell(column, row);
        self.heights()[cell.unwrap_or_else(|| panic!("no cell is in column {column} of {columns} and row {row} of {rows}"))]
    }

    /// How much water is on the site, in cubic micrometres: the sum of all heights times the area of a cell. It is exact, and no step and
    /// no run without pumps changes it, whatever the run's reason; with pumps it changes by what the tally says was added and taken.
    ///
    /// A litre has 10^15 of them. The sum of a site's heights is at most 819,200,000,000 and an area at most 4·10^14, so that a volume
    /// takes up to 89 bits: a `u128` holds each, and a `u64` would not.
    ///
    /// ```
    /// # use water::{Card, Refusal, Site};
    /// let card = Card { columns: 2, rows: 1, dx: 1_000_000, dy: 500_000, dt: 100, steps: 25 };
    /// let mut site = Site::still(card, vec![0, 0], &[2_000_000, 1_000_000])?;
    /// let first = site.volume();
    /// assert_eq!(first, 3_000_000 * 1_000_000 * 500_000);
    /// assert_eq!(first / 10_u128.pow(15), 1_500); // litres
    /// site.run();
    /// assert_eq!(site.volume(), first);
    /// # Ok::<(), Refusal>(())
    /// ```
    pub fn volume(&self) -> u128 {
        // no height of a site is below 0
        let sum: u64 = self.heights().iter().map(|height| u64::from(height.unsigned_abs())).sum();
        self.card.volume(sum)
    }

    /// The depth text of one cell.
    ///
    /// # Panics
    ///
    /// If the site has no such column or row.
    pub fn depth_text(&self, column: u32, row: u32) -> String {
        calls::depth_text(self.height(column, row), &mut [0; 7]).expect("a kept height has a text").to_string()
    }
}

/// The first three checks alone: a sheet written to no room at all gets as far as 8 exactly where they pass.
fn check(card: Card, ground: &[i32], state: &[i32]) -> Result<(), Refusal> {
    match calls::write_sheet(card, ground, state, &mut []) {
        Err(Refusal::Room { .. }) => Ok(()),
        Err(refusal) => Err(refusal),
        Ok(_) => unreachable!("no sheet fits no room"),
    }
}
