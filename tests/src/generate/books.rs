//! Runoff books for a river.

use super::{River, Rng};
use crate::engine::book::{WaterYear, FIRST_YEAR, LAST_YEAR, MOST_YEARS};
use crate::engine::records::{MONTHS, MOST_RUNOFF};

impl River {
    /// A book with any number of years that there can be.
    pub fn any_book(&self, rng: &mut Rng) -> Vec<WaterYear> {
        let years = *rng.pick(&[0, 1, 1, 2, 2, 3, 5, 8, MOST_YEARS]);
        self.book(rng, years)
    }

    pub fn book(&self, rng: &mut Rng, years: usize) -> Vec<WaterYear> {
        let sheets = |rng: &mut Rng| (0..MONTHS).flat_map(|_| self.runoff(rng)).collect();
        years_of(rng, years)
            .into_iter()
            .map(|year| WaterYear { year, runoff: sheets(rng) })
            .collect()
    }

    /// Puts runoff over its limit on the sheet of a month, in some rows; tells the first.
    pub fn put_over(&self, rng: &mut Rng, year: &mut WaterYear, month: usize) -> usize {
        let rows = self.basin.stations.len();
        let sheet = &mut year.runoff[rows * month..rows * (month + 1)];
        for _ in 0..*rng.pick(&[1, 1, 2, 5]) {
            sheet[rng.below(rows)] = *rng.pick(&[MOST_RUNOFF + 1, 1 << 31, u32::MAX]);
        }
        sheet.iter().position(|&number| number > MOST_RUNOFF).unwrap()
    }
}

/// So many years that rise, often one after the other, often at either limit.
pub fn years_of(rng: &mut Rng, years: usize) -> Vec<u32> {
    let first = *rng.pick(&[FIRST_YEAR, 1900, 1964, LAST_YEAR + 1 - years as u32]);
    let apart = *rng.pick(&[1, 1, 5, 12]);
    let mut year = first as u64;
    let mut list = Vec::new();
    for left in (0..years as u64).rev() {
        list.push(year as u32);
        // The years that are left have to find room.
        year = (year + rng.between(1, apart)).min(LAST_YEAR as u64 + 1 - left);
    }
    list
}

/// A year that is listed, where there is one.
pub fn any_listed(rng: &mut Rng, years: &[WaterYear]) -> Option<u32> {
    (!years.is_empty()).then(|| rng.pick(years).year)
}
