//! A right's short months asked of both engines, on a board that is to stay as it is.

use crate::engine::short_months;
use crate::ffi;
use crate::lent::Lent;
use std::fmt::Display;

/// Rights that were asked for.
#[derive(Default, Debug)]
pub struct Asked {
    /// By the number of the answer: 0 accepted, 1 to 7 refused.
    pub numbers: [usize; 8],
    /// Accepted ones by their short months; those that are not there have none.
    pub months: [usize; 13],
}

impl Asked {
    /// Asks both engines; answers as they do.
    pub fn compare(
        &mut self,
        file: &[u8],
        board: &[u64],
        right: usize,
        at: &dyn Display,
    ) -> [u64; 3] {
        let told = short_months(file, board, right);
        let mut lent = Lent::of(board);
        assert_eq!(ffi::short_months(file, lent.list(), right), told, "{at}: right {right}");
        lent.assert_is(board, "board of short months", at);
        self.numbers[told[0] as usize] += 1;
        if told[0] == 0 {
            self.months[told[2] as usize] += 1;
        }
        told
    }

    /// The same of one right of so many: each in its turn, then the first that is not there and
    /// the last number there is.
    pub fn compare_next(&mut self, file: &[u8], board: &[u64], rights: usize, at: &dyn Display) {
        let next = self.all() % (rights + 2);
        self.compare(file, board, if next > rights { usize::MAX } else { next }, at);
    }

    /// How many rights there were.
    pub fn all(&self) -> usize {
        self.numbers.iter().sum()
    }

    /// native.sh adds up the counts of these lines.
    pub fn print(&self, what: &str) {
        println!(
            "{} rights asked: {what}, by number 0 to 7 {:?}; by months 0 to 12 {:?}",
            self.all(),
            self.numbers,
            self.months
        );
    }
}
