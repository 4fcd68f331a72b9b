//! The tally of a list of months, the account of a run, told as slowly and as
//! literally as the rules tell it (01, The tally of a list of months). It shares the
//! records and the file's check with the engine, and nothing of the month: paths are
//! walked row by row; returns on their way, deep loss and short months are worked out
//! from the grants of the past months.
//!
//! After every call it asserts the water sum and each reservoir's account; before the
//! first right and three times in each right's turn, that at every row
//! 0 <= available flow <= flow.

use super::check::Refusal;
use super::records::*;
use super::Answer;

mod accounts;
mod lakes;
mod paths;
mod refusals;
mod river;
mod shares;
mod short_months;
mod start;
#[cfg(test)]
mod tests;
mod years;
pub use lakes::area;
pub use paths::{path, row_below};
use refusals::refused;
use river::River;
use shares::shares;
pub use shares::split;
use start::Start;

/// What a right was given in a month, and why no more.
#[derive(Clone, Debug, PartialEq, Eq)]
pub struct Grant {
    pub from_river: i128,
    pub from_storage: i128,
    pub reason: Reason,
    /// Number of the controlling station; 0 for reason 0.
    pub station: u32,
}

#[derive(Clone, Copy, Debug, PartialEq, Eq)]
pub enum Reason {
    NotShort,
    Called,
    RiverLow,
    StorageLow,
}

impl Reason {
    /// The number of each reason in a report.
    pub fn number(self) -> u64 {
        match self {
            Reason::NotShort => 0,
            Reason::Called => 1,
            Reason::RiverLow => 2,
            Reason::StorageLow => 3,
        }
    }
}

impl Grant {
    fn total(&self) -> i128 {
        self.from_river + self.from_storage
    }
}

/// What the tally keeps of one accepted month.
#[derive(Clone, Debug)]
pub struct PastMonth {
    pub runoff: Vec<u32>,
    pub flow: Vec<i128>,
    pub available: Vec<i128>,
    pub evaporation: Vec<i128>,
    pub grants: Vec<Grant>,
}

/// The account of a run.
pub struct Tally {
    basin: Result<Basin, Refusal>,
    paths: Vec<Vec<usize>>,
    start: Start,
    pub m: usize,
    pub storages: Vec<i128>,
    pub marks: Vec<bool>,
    pub taken: Vec<i128>,
    /// Accepted months; month 1 is at index 0.
    pub months: Vec<PastMonth>,
}

impl Tally {
    /// One call. It is told what a month call is, but for the board, and of the report
    /// only how long it is; it answers as the month call does.
    pub fn call(&mut self, runoff: &[u32], report_length: usize) -> Answer {
        let basin = match &self.basin {
            Ok(basin) => basin.clone(),
            Err(refusal) => return refusal.answer(),
        };
        let answer = match refused(&basin, runoff, report_length) {
            Some(refusal) => refusal,
            None => self.accepted(&basin, runoff),
        };
        self.assert_water_sum(&basin);
        self.assert_reservoir_accounts(&basin);
        answer
    }

    fn accepted(&mut self, basin: &Basin, runoff: &[u32]) -> Answer {
        if self.m == 0 {
            self.marks.fill(false);
            self.taken.fill(0);
        }
        let due_now = self.pending(basin).iter().map(|lags| lags[0]).collect::<Vec<_>>();
        let mut river = River::start(&self.paths, runoff, &due_now);
        let mut short_rows = Vec::new();
        let mut grants = Vec::new();
        for place in 0..basin.rights.len() {
            let grant = self.turn(basin, place, &mut river, &short_rows);
            if grant.reason != Reason::NotShort {
                short_rows.push(basin.rights[place].row as usize);
            }
            grants.push(grant);
        }
        let evaporation = self.evaporate(basin);
        self.m = (self.m + 1) % 12;
        self.months.push(PastMonth {
            runoff: runoff.to_vec(),
            flow: river.flow,
            available: river.available,
            evaporation,
            grants,
        });
        (0, short_rows.len() as u64)
    }

    /// Step 3 for one right.
    fn turn(
        &mut self,
        basin: &Basin,
        place: usize,
        river: &mut River,
        short_rows: &[usize],
    ) -> Grant {
        let right = &basin.rights[place];
        let row = right.row as usize;
        let path = self.paths[row].clone();
        let demand = self.demand(basin, place);
        let callers: Vec<usize> = match right.kind {
            INSTREAM => Vec::new(),
            _ => path.iter().copied().filter(|row| short_rows.contains(row)).collect(),
        };
        let reach = if right.kind == INSTREAM { vec![row] } else { path.clone() };
        let lowest = reach.iter().map(|&row| river.available[row]).min().unwrap();
        let low_row = reach.iter().copied().find(|&row| river.available[row] == lowest).unwrap();

        let from_river = if callers.is_empty() { demand.min(lowest) } else { 0 };
        if right.kind == INSTREAM {
            river.available[row] -= from_river;
        } else {
            river.change(&path, -from_river);
        }
        if right.kind == STORAGE {
            self.store(basin, place, from_river);
        }
        river.assert_in_bounds("after a river part");

        let mut from_storage = 0;
        if right.kind == PROJECT {
            from_storage = self.release(basin, right, demand - from_river, river);
        }
        river.assert_in_bounds("after a part from storage");

        for (row, lag, share) in shares(basin, right, from_river + from_storage) {
            if lag == 0 {
                river.change(&self.paths[row], share);
            }
        }
        river.assert_in_bounds("after returns");

        let short = from_river + from_storage < demand;
        // Under reasons 1 and 2 the first row that fits, going down the path (02, No. 2).
        let (reason, row) = match right.kind {
            _ if !short => (Reason::NotShort, None),
            PROJECT => {
                let lake = &basin.reservoirs[right.reservoir as usize];
                (Reason::StorageLow, Some(lake.row as usize))
            }
            _ if !callers.is_empty() => (Reason::Called, Some(callers[0])),
            _ => (Reason::RiverLow, Some(low_row)),
        };
        let station = row.map_or(0, |row| basin.stations[row].number);
        Grant { from_river, from_storage, reason, station }
    }

    fn demand(&self, basin: &Basin, place: usize) -> i128 {
        let right = &basin.rights[place];
        if right.months & (1 << self.m) == 0 {
            return 0;
        }
        let amount = right.amounts[self.m] as i128;
        if right.kind != STORAGE {
            return amount;
        }
        let lake = right.reservoir as usize;
        if self.marks[lake] {
            return 0;
        }
        let limit_left = right.limit as i128 - self.taken[place];
        let capacity_left = basin.reservoirs[lake].capacity as i128 - self.storages[lake];
        *[amount, limit_left, capacity_left].iter().min().unwrap()
    }

    fn store(&mut self, basin: &Basin, place: usize, stored: i128) {
        let lake = basin.rights[place].reservoir as usize;
        self.storages[lake] += stored;
        self.taken[place] += stored;
        if stored > 0 && self.storages[lake] == basin.reservoirs[lake].capacity as i128 {
            self.marks[lake] = true;
        }
    }

    fn release(&mut self, basin: &Basin, right: &Right, rest: i128, river: &mut River) -> i128 {
        let lake = right.reservoir as usize;
        let released = rest.min(self.storages[lake]);
        self.storages[lake] -= released;
        for &row in &self.paths[basin.reservoirs[lake].row as usize] {
            if row == right.row as usize {
                break; // the right takes it there
            }
            river.flow[row] += released;
        }
        released
    }

    fn evaporate(&mut self, basin: &Basin) -> Vec<i128> {
        let mut evaporation = Vec::new();
        for (lake, reservoir) in basin.reservoirs.iter().enumerate() {
            let storage = self.storages[lake];
            let area = area(&reservoir.area_capacity, storage);
            let loss = (area * reservoir.depths[self.m] as i128).min(storage);
            self.storages[lake] -= loss;
            evaporation.push(loss);
        }
        evaporation
    }

    /// What is on its way after n months: a share that a grant of month j returns s
    /// months later arrives in month j + s, which is k months on. Place k - 1 of a row
    /// holds k. What was due at the start k + n months on is now due at k.
    fn pending(&self, basin: &Basin) -> Vec<[i128; 11]> {
        let n = self.months.len();
        let mut pending = vec![[0; 11]; basin.stations.len()];
        for (pending, dues) in pending.iter_mut().zip(&self.start.dues) {
            pending.iter_mut().zip(dues.iter().skip(n)).for_each(|(now, due)| *now = *due);
        }
        // A share comes at most 11 months late: older months have none left.
        for j in n.saturating_sub(11) + 1..=n {
            for (right, grant) in basin.rights.iter().zip(&self.months[j - 1].grants) {
                for (row, s, share) in shares(basin, right, grant.total()) {
                    if j + s > n {
                        pending[row][j + s - n - 1] += share;
                    }
                }
            }
        }
        pending
    }

    /// Pending of an accepted file, for comparison with a board's dues.
    pub fn pending_returns(&self) -> Vec<[i128; 11]> {
        self.basin.as_ref().map_or(Vec::new(), |basin| self.pending(basin))
    }
}
