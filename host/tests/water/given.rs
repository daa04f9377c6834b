//! How often each number was given over many random cases, so that no test passes by refusing everything.

use crate::trials::single;

/// How often each number was given.
#[derive(Default, Debug)]
pub struct Given([u64; 11]);

impl Given {
    /// Counts a number; 6 is unused, and no call gives it.
    pub fn count(&mut self, number: u32) {
        assert_ne!(number, 6, "6 has no input");
        self.0[number as usize] += 1;
    }

    /// Each of these numbers in at least one case of so many.
    pub fn assert_some(&self, what: &str, numbers: &[u32], one_in: u64) {
        println!("{what}: how often 0 to 10 were given: {:?}", self.0);
        let all: u64 = self.0.iter().sum();
        for &number in numbers {
            let times = self.0[number as usize];
            assert!(single() || times * one_in >= all, "{what}: {number} was given in only {times} of {all} cases");
        }
    }

    /// Each of these numbers in at least one case of so many, no other at all.
    pub fn assert_often(&self, what: &str, numbers: &[u32], one_in: u64) {
        self.assert_some(what, numbers, one_in);
        for number in (0..11).filter(|number| !numbers.contains(number)) {
            assert_eq!(self.0[number as usize], 0, "{what}: {number} is never given");
        }
    }
}
