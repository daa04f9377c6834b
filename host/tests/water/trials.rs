//! Many random cases of one test, each with a seed of its own, so that a failed one can be tried alone.

use crate::rng::Rng;

// a variable by the second half of its name; the first is the package's (main.rs)
fn number(half: &str) -> Option<u64> {
    let variable = &format!("{}_{half}", crate::VARIABLES);
    let value = std::env::var(variable).ok()?;
    Some(value.parse().unwrap_or_else(|_| panic!("{variable} is a whole number, and not {value:?}")))
}

/// How many times `count` cases the variable `.._LONG` asks for.
pub fn at_length(count: u64) -> u64 {
    count * number("LONG").unwrap_or(1).max(1)
}

struct Case<'a> {
    name: &'a str,
    number: u64,
}

impl Drop for Case<'_> {
    fn drop(&mut self) {
        if std::thread::panicking() {
            eprintln!("{}: case {} failed; {}_CASE={} tries it alone", self.name, self.number, crate::VARIABLES, self.number);
        }
    }
}

/// Tries `body` on `count` cases, or on `.._LONG` times as many.
pub fn trials(name: &str, count: u64, mut body: impl FnMut(&mut Rng)) {
    // a seed of the test's own: its name's bytes, and `.._SEED`
    let seed = name.bytes().fold(number("SEED").unwrap_or(0), |seed, byte| Rng::new(seed ^ u64::from(byte)).next());
    let cases = match number("CASE") {
        Some(case) => case..case + 1,
        None => 0..at_length(count),
    };
    for number in cases {
        let case = Case { name, number };
        body(&mut Rng::new(seed ^ number.wrapping_mul(0xd6e8_feb8_6659_fd93)));
        drop(case);
    }
}

/// True where a single case is tried, so that counts over all cases say nothing.
pub fn single() -> bool {
    number("CASE").is_some()
}
