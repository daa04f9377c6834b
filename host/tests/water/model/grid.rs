//! Numbers on a rectangle of places, kept row by row, south to north, and within a row west to east.

pub struct Grid {
    columns: usize,
    pub numbers: Vec<i128>,
}

impl Grid {
    pub fn of(columns: usize, rows: usize, at: impl Fn(usize, usize) -> i128) -> Grid {
        let mut numbers = Vec::with_capacity(columns * rows);
        for j in 0..rows {
            numbers.extend((0..columns).map(|i| at(i, j)));
        }
        Grid { columns, numbers }
    }

    pub fn at(&self, i: usize, j: usize) -> i128 {
        self.numbers[j * self.columns + i]
    }

    /// As a list of words, which the numbers must fit.
    pub fn words(&self) -> Vec<i32> {
        self.numbers.iter().map(|&number| i32::try_from(number).expect("the number is a word")).collect()
    }
}
