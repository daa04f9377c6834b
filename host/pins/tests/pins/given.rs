//! How often each number was given over many random cases, so that no test passes by refusing everything, or nothing.

use crate::trials::single;

/// How often each number was given.
#[derive(Default, Debug)]
pub struct Given([u64; 15]);

impl Given {
    pub fn count(&mut self, number: u32) {
        self.0[number as usize] += 1;
    }

    pub fn all(&self) -> u64 {
        self.0.iter().sum()
    }

    /// Each of these numbers in at least one case of so many, no other at all.
    pub fn assert_often(&self, what: &str, numbers: &[u32], one_in: u64) {
        let all = self.all();
        let told: Vec<String> = numbers.iter().map(|&number| format!("{number}: {}", self.0[number as usize])).collect();
        println!("{what}: {all} in all; {}", told.join(", "));
        for (number, &times) in (0u32..).zip(&self.0) {
            if numbers.contains(&number) {
                assert!(single() || times * one_in >= all, "{what}: {number} was given in only {times} of {all} cases");
            } else {
                assert_eq!(times, 0, "{what}: {number} is never given");
            }
        }
    }
}
