//! Several ways of doing the same work, measured turn by turn in one process.

use std::time::Instant;

const ROUNDS: usize = 41;
// a measurement lasts at least this long, so that the clock's own grain does not show
const LEAST: f64 = 300_000.0;

/// Keeps the compiler from seeing that a result is not used, or that the same work was done before.
pub fn seen<T>(thing: &mut T) {
    // Safety: no instruction at all
    unsafe { std::arch::asm!("/* {0} */", in(reg) thing as *mut T, options(nostack, preserves_flags)) }
}

fn measure(work: &mut dyn FnMut(), times: u32) -> f64 {
    let start = Instant::now();
    for _ in 0..times {
        work();
    }
    start.elapsed().as_nanos() as f64 / f64::from(times)
}

fn median(mut times: Vec<f64>) -> f64 {
    times.sort_by(|a, b| a.partial_cmp(b).expect("a time is a number"));
    times[times.len() / 2]
}

/// The medians in nanoseconds of one call of each. They are measured in rounds; each begins with another one, and every other goes backwards.
pub fn compare<const WAYS: usize>(mut works: [&mut dyn FnMut(); WAYS]) -> [f64; WAYS] {
    let mut times = 1;
    while works.iter_mut().any(|work| (measure(work, times) * f64::from(times)) < LEAST) {
        times *= 2;
    }
    let mut measured = [(); WAYS].map(|()| Vec::new());
    for round in 0..ROUNDS {
        for turn in 0..WAYS {
            let way = (round + if round % 2 == 0 { turn } else { WAYS - turn }) % WAYS;
            measured[way].push(measure(works[way], times));
        }
    }
    measured.map(median)
}
