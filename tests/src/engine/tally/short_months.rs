//! In which months a right was short, worked out from its grants (02, No. 6).

use super::{Reason, Tally};
use crate::engine::records::MONTHS;

impl Tally {
    /// Of each month of the water year, whether the right was short in it. The year is that
    /// of the last month that was run, from its October on; of months before the start the
    /// start tells, as long as no October has been run since.
    fn short_in(&self, right: usize) -> [bool; MONTHS] {
        let month_of = |past: usize| (self.start.m + past) % MONTHS;
        let october = (0..self.months.len()).rfind(|&past| month_of(past) == 0);
        let mut short = match october {
            Some(_) => [false; MONTHS],
            None => self.start.short[right],
        };
        for past in october.unwrap_or(0)..self.months.len() {
            short[month_of(past)] = self.months[past].grants[right].reason != Reason::NotShort;
        }
        short
    }

    /// The number of these months; none for a right that is not there.
    pub fn short_months(&self, right: usize) -> u64 {
        if right >= self.taken.len() {
            return 0;
        }
        let mut months = 0;
        for short in self.short_in(right) {
            if short {
                months += 1;
            }
        }
        months
    }

    /// The word of a right that is there: for month m, where it was short, 2 to the power m.
    pub fn short_word(&self, right: usize) -> u64 {
        let mut word = 0;
        for (m, short) in self.short_in(right).into_iter().enumerate() {
            if short {
                word += 2u64.pow(m as u32);
            }
        }
        word
    }
}
