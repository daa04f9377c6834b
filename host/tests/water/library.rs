//! Each call of the library on fenced lists, beside the model: both get the same input, and every answer and every element of every
//! lent list is compared. A call that leaves a list at one end meets a fence; one that writes within 1,024 bytes of the other end
//! spoils a pattern. Each function returns the answer that both gave. Of every step and every run the sums of all heights are compared
//! too, before and after, with what pumps added and took; and every step is made by both engines, so that each test of a step is one of the
//! textbook engine as well. `step` and `run` lend an empty list of pumps.

use crate::lent::Lent;
use crate::model;
use crate::rng::Rng;
use water::raw::{self, Card, Chamber, Found, Heard, Raster, Staff, Tally, Window, Wrote};

type Model = fn(Card, ground: &[i32], state: &[i32], pumps: &[i32], next: &mut [i32]) -> u32;

/// A step's call, beside the model's that it is held to.
struct Engine {
    name: &'static str,
    call: raw::Step,
    model: Model,
}

const FIRST: Engine = Engine { name: "step", call: raw::water_step, model: model::step };
const TEXTBOOK: Engine = Engine { name: "textbook step", call: raw::water_step_textbook, model: model::step_textbook };

pub fn step(rng: &mut Rng, card: Card, ground: &[i32], state: &[i32], next: &mut [i32]) -> u32 {
    step_with(rng, card, ground, state, &[], next)
}

/// By both engines: the same number, and the same in every list.
pub fn step_with(rng: &mut Rng, card: Card, ground: &[i32], state: &[i32], pumps: &[i32], next: &mut [i32]) -> u32 {
    let mut textbook_next = next.to_vec();
    let number = step_by(&FIRST, rng, card, ground, state, pumps, next);
    let textbook = step_by(&TEXTBOOK, rng, card, ground, state, pumps, &mut textbook_next);
    assert_eq!(textbook, number, "both engines' step of {card:?}");
    assert!(textbook_next == next, "both engines' next state of {card:?}");
    number
}

fn step_by(engine: &Engine, rng: &mut Rng, card: Card, ground: &[i32], state: &[i32], pumps: &[i32], next: &mut [i32]) -> u32 {
    let (g, s, n) = (Lent::new(rng, "ground", ground), Lent::new(rng, "state", state), Lent::new(rng, "next", next));
    let p = Lent::new(rng, "pumps", pumps);
    // Safety, here and below: each pointer comes with its own list's length, and no two lists share memory.
    let number = unsafe {
        (engine.call)(card, g.pointer(), g.length(), s.pointer(), s.length(), p.pointer(), p.length(), n.pointer(), n.length())
    };
    let expected = (engine.model)(card, ground, state, pumps, next);
    assert_eq!(number, expected, "{} of {card:?} with {pumps:?}", engine.name);
    g.assert_holds(ground);
    s.assert_holds(state);
    p.assert_holds(pumps);
    n.assert_holds(next);
    if number == 0 {
        let moved = model::pumped(pumps, state).expect("inlets of an accepted step fit");
        let (before, after) = (model::sum_of_heights(&card, state), model::sum_of_heights(&card, next));
        assert_eq!(after + moved.taken, before + moved.added, "no water is made and none is lost but by pumps");
    }
    number
}

pub fn run(rng: &mut Rng, card: Card, ground: &[i32], state: &mut [i32], scratch: &mut [i32]) -> Tally {
    run_with(rng, card, ground, state, &[], scratch)
}

pub fn run_with(rng: &mut Rng, card: Card, ground: &[i32], state: &mut [i32], pumps: &[i32], scratch: &mut [i32]) -> Tally {
    let (g, s, t) = (Lent::new(rng, "ground", ground), Lent::new(rng, "state", state), Lent::new(rng, "scratch", scratch));
    let p = Lent::new(rng, "pumps", pumps);
    let tally = unsafe {
        raw::water_run(card, g.pointer(), g.length(), s.pointer(), s.length(), p.pointer(), p.length(), t.pointer(), t.length())
    };
    let before = model::sum_of_heights(&card, state);
    let expected = model::run(card, ground, state, pumps, scratch);
    assert_eq!(tally, expected, "run of {card:?} with {pumps:?}");
    g.assert_holds(ground);
    s.assert_holds(state);
    p.assert_holds(pumps);
    t.assert_holds(scratch);
    let after = model::sum_of_heights(&card, state);
    assert_eq!(
        after + i128::from(tally.taken),
        before + i128::from(tally.added),
        "no water is made and none is lost but by pumps, whatever the reason"
    );
    tally
}

/// A question to the search: a site, a window, a depth.
#[derive(Clone, Copy, Debug)]
pub struct Question<'a> {
    pub card: Card,
    pub ground: &'a [i32],
    pub state: &'a [i32],
    pub window: Window,
    pub depth: i32,
}

pub fn search(rng: &mut Rng, q: Question, chambers: &[Chamber], found: &mut [u32]) -> Found {
    let (g, s) = (Lent::new(rng, "ground", q.ground), Lent::new(rng, "state", q.state));
    let (c, f) = (Lent::new(rng, "chambers", chambers), Lent::new(rng, "found", found));
    let answer = unsafe {
        raw::water_search(
            q.card,
            g.pointer(),
            g.length(),
            s.pointer(),
            s.length(),
            c.pointer(),
            c.length(),
            q.window,
            q.depth,
            f.pointer(),
            f.length(),
        )
    };
    let expected = model::search(q.card, q.ground, q.state, chambers, q.window, q.depth, found);
    assert_eq!(answer, expected, "search of {:?} by {:?} and depth {}", q.card, q.window, q.depth);
    g.assert_holds(q.ground);
    s.assert_holds(q.state);
    c.assert_holds(chambers);
    f.assert_holds(found);
    answer
}

pub fn search_lists(rng: &mut Rng, q: Question, xs: &[i64], ys: &[i64], found: &mut [u32]) -> Found {
    let (g, s) = (Lent::new(rng, "ground", q.ground), Lent::new(rng, "state", q.state));
    let (x, y, f) = (Lent::new(rng, "xs", xs), Lent::new(rng, "ys", ys), Lent::new(rng, "found", found));
    let answer = unsafe {
        raw::water_search_lists(
            q.card,
            g.pointer(),
            g.length(),
            s.pointer(),
            s.length(),
            x.pointer(),
            x.length(),
            y.pointer(),
            y.length(),
            q.window,
            q.depth,
            f.pointer(),
            f.length(),
        )
    };
    let expected = model::search_lists(q.card, q.ground, q.state, xs, ys, q.window, q.depth, found);
    assert_eq!(answer, expected, "search of lists, {:?} by {:?} and depth {}", q.card, q.window, q.depth);
    g.assert_holds(q.ground);
    s.assert_holds(q.state);
    x.assert_holds(xs);
    y.assert_holds(ys);
    f.assert_holds(found);
    answer
}

pub fn read_sheet(rng: &mut Rng, sheet: &[u8], ground: &mut [i32], state: &mut [i32]) -> Heard {
    let (b, g, s) = (Lent::new(rng, "sheet", sheet), Lent::new(rng, "ground", ground), Lent::new(rng, "state", state));
    let heard = unsafe { raw::water_read_sheet(b.pointer(), b.length(), g.pointer(), g.length(), s.pointer(), s.length()) };
    let expected = model::read_sheet(sheet, ground, state);
    assert_eq!(heard, expected, "reading a sheet of {} bytes", sheet.len());
    b.assert_holds(sheet);
    g.assert_holds(ground);
    s.assert_holds(state);
    heard
}

pub fn write_sheet(rng: &mut Rng, card: Card, ground: &[i32], state: &[i32], bytes: &mut [u8]) -> Wrote {
    let (g, s, b) = (Lent::new(rng, "ground", ground), Lent::new(rng, "state", state), Lent::new(rng, "bytes", bytes));
    let wrote =
        unsafe { raw::water_write_sheet(card, g.pointer(), g.length(), s.pointer(), s.length(), b.pointer(), b.length()) };
    let expected = model::write_sheet(card, ground, state, bytes);
    assert_eq!(wrote, expected, "writing the sheet of {card:?}");
    g.assert_holds(ground);
    s.assert_holds(state);
    b.assert_holds(bytes);
    wrote
}

pub fn depth_text(rng: &mut Rng, height: i32, scratch: &mut [u8]) -> usize {
    let t = Lent::new(rng, "scratch", scratch);
    let length = unsafe { raw::water_depth_text(height, t.pointer(), t.length()) };
    let expected = model::depth_text(height, scratch);
    assert_eq!(length, expected, "depth text of {height} in {} bytes", scratch.len());
    t.assert_holds(scratch);
    length
}

pub fn read_raster(rng: &mut Rng, text: &[u8], ground: &mut [i32]) -> Raster {
    let (t, g) = (Lent::new(rng, "text", text), Lent::new(rng, "ground", ground));
    let answer = unsafe { raw::water_read_raster(t.pointer(), t.length(), g.pointer(), g.length()) };
    let expected = model::read_raster(text, ground);
    assert_eq!(answer, expected, "reading {:?} into {} words", String::from_utf8_lossy(text), ground.len());
    t.assert_holds(text);
    g.assert_holds(ground);
    answer
}

pub fn write_raster(rng: &mut Rng, card: Card, ground: &[i32], text: &mut [u8]) -> Wrote {
    let (g, t) = (Lent::new(rng, "ground", ground), Lent::new(rng, "text", text));
    let wrote = unsafe { raw::water_write_raster(card, g.pointer(), g.length(), t.pointer(), t.length()) };
    let expected = model::write_raster(card, ground, text);
    assert_eq!(wrote, expected, "writing the raster of {card:?} into {} bytes", text.len());
    g.assert_holds(ground);
    t.assert_holds(text);
    wrote
}

/// A staff reading is lent nothing.
pub fn staff(kind: u32, value: f64) -> Staff {
    let answer = unsafe { raw::water_staff(kind, value) };
    assert_eq!(answer, model::staff(kind, value), "kind {kind}, {value:e}, bits {:#018x}", value.to_bits());
    answer
}
