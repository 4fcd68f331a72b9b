//! One month: refusals 6 to 8, then steps 1 to 5 (01, The board and one month).
//!
//! The month works on the caller's bytes: every record is decoded where the
//! rules of the file judge it, and once more where its turn comes. Nothing is
//! allocated. Flow and available flow are signed, so that nothing is ever cut
//! off at 0.

use super::board::*;
use super::check::{judge, Judged};
use super::network::Network;
use super::records::*;
use super::report;
use super::slip::{Slip, Telling};
use super::split::area;
use super::Answer;

mod reasons;
mod refusals;
mod returns;
mod shortages;
mod turn;
mod younger;
pub use refusals::judge_runoff;

/// The month call. Answers number and place, or 0 and the number of rights
/// short. A refused call changes neither board nor report.
pub fn month<T: Telling>(
    telling: &T,
    file: &[u8],
    runoff: &[u32],
    board: &mut [u64],
    report: &mut [u64],
) -> Answer {
    let mut network = Network::room();
    let basin = match judge(telling, file, &mut network) {
        Ok(basin) => basin,
        Err(refusal) => return refusal.answer(),
    };
    month_on(telling, &basin, runoff, board, report)
}

/// The month call on a file that has been judged, for a caller who runs many months
/// of one file.
pub fn month_on<T: Telling>(
    telling: &T,
    basin: &Judged,
    runoff: &[u32],
    board: &mut [u64],
    report: &mut [u64],
) -> Answer {
    match refusals::judge_call(telling, basin, runoff, board, report) {
        Ok(()) => (0, run_month(telling, basin, runoff, board, report)),
        Err(refusal) => refusals::refuse(telling, refusal, board),
    }
}

/// Steps 1 to 5, on lists that have been judged; answers the number of rights short. Apart
/// from its callers, since the judging beside it costs a small month a tenth of its time.
#[inline(never)]
pub fn run_month<T: Telling>(
    telling: &T,
    basin: &Judged,
    runoff: &[u32],
    board: &mut [u64],
    report: &mut [u64],
) -> u64 {
    let mut month = Month::begin(telling, basin, board);
    month.clear_in_october();
    month.start_flow(runoff);
    month.move_dues();
    for (place, record) in basin.sections.rights.iter().enumerate() {
        let right = Right::decode(record);
        let (grant, reason, station) = month.serve(place, &right);
        report[report::from_river(place)] = grant.from_river as u64;
        report[report::from_storage(place)] = grant.from_storage as u64;
        report[report::reason(place)] = reason;
        report[report::station(place)] = station;
    }
    if telling.slips(Slip::ReturnUsedBySenior) {
        month.serve_seniors_again(report);
    }
    let shorts = month.shorts;
    month.report_rows(report);
    month.evaporate(report);
    month.report_deep_loss(report);
    month.end();
    if telling.slips(Slip::ReportTailCleared) {
        report[basin.sections.report_length()..].fill(0);
    }
    shorts
}

/// The rows of a set, first row of the path first.
#[inline(always)]
fn rows_of(mut set: u64) -> impl Iterator<Item = usize> {
    std::iter::from_fn(move || {
        if set == 0 {
            return None;
        }
        let row = set.trailing_zeros() as usize;
        set &= set - 1;
        Some(row)
    })
}

struct Grant {
    from_river: i64,
    from_storage: i64,
}

impl Grant {
    fn total(&self) -> i64 {
        self.from_river + self.from_storage
    }
}

/// A month under way.
struct Month<'a, T> {
    telling: &'a T,
    basin: &'a Judged<'a>,
    board: &'a mut [u64],
    m: usize,
    flow: [i64; MOST_STATIONS],
    /// What is left to later rights.
    available: [i64; MOST_STATIONS],
    storage: [i64; MOST_RESERVOIRS],
    storage_before: [i64; MOST_RESERVOIRS],
    marks: u64,
    marks_before: u64,
    /// Rows of the rights already short this month.
    short_rows: u64,
    /// Rows of all rights already served; only for slips.
    served_rows: u64,
    shorts: u64,
    /// What of this month's returns goes deep, over all rights.
    deep_loss: i64,
}

impl<'a, T: Telling> Month<'a, T> {
    fn begin(telling: &'a T, basin: &'a Judged<'a>, board: &'a mut [u64]) -> Self {
        let storage = std::array::from_fn(|place| board[STORAGES + place] as i64);
        Month {
            telling,
            basin,
            m: (board[NEXT_MONTH] as usize).min(MONTHS - 1), // m < 12 on a possible board
            flow: [0; MOST_STATIONS],
            available: [0; MOST_STATIONS],
            storage,
            storage_before: storage,
            marks: board[MARKS],
            marks_before: board[MARKS],
            short_rows: 0,
            served_rows: 0,
            shorts: 0,
            deep_loss: 0,
            board,
        }
    }

    fn slips(&self, slip: Slip) -> bool {
        self.telling.slips(slip)
    }

    fn rows(&self) -> usize {
        self.basin.sections.stations.len()
    }

    fn station_number(&self, row: usize) -> u64 {
        u32_at(&self.basin.sections.stations[row], 0) as u64
    }

    fn reservoir_row(&self, reservoir: usize) -> usize {
        self.basin.sections.reservoirs[reservoir][0] as usize
    }

    fn capacity(&self, reservoir: usize) -> i64 {
        u32_at(&self.basin.sections.reservoirs[reservoir], 4) as i64
    }

    /// Step 1: a year begins in October, with nothing stored, no reservoir filled and no
    /// right short in it.
    fn clear_in_october(&mut self) {
        if self.m != 0 {
            return;
        }
        if !self.slips(Slip::OctoberKeepsWords) && !self.slips(Slip::OctoberClearsWordsLast) {
            self.clear_words();
        }
        if !self.slips(Slip::OctoberKeepsTaken) {
            self.board[TAKEN..TAKEN + self.basin.sections.rights.len()].fill(0);
        }
        if !self.slips(Slip::OctoberKeepsMarks) {
            self.marks = 0;
            self.marks_before = 0;
        }
    }

    /// Step 2: runoff and what returns in this month gather downstream, and all of it
    /// is available.
    fn start_flow(&mut self, runoff: &[u32]) {
        for (row, &runoff) in runoff.iter().enumerate().take(self.rows()) {
            let due_now =
                if self.slips(Slip::DuesNotUsed) { 0 } else { self.board[due(row, 1)] as i64 };
            self.flow[row] += runoff as i64 + due_now;
            self.available[row] += runoff as i64;
            if !self.slips(Slip::AvailableWithoutReturns) {
                self.available[row] += due_now;
            }
            // The row below is a later row: what has gathered here goes there.
            let downstream = self.basin.network.path[row] & !(1 << row);
            if downstream != 0 {
                let below = downstream.trailing_zeros() as usize;
                self.flow[below] += self.flow[row];
                self.available[below] += self.available[row];
            }
        }
    }

    /// Step 2: what is due comes a month nearer. What was due now has been used, and
    /// nothing is due as late as it can be.
    fn move_dues(&mut self) {
        if self.slips(Slip::DuesNotMoved) {
            return;
        }
        for row in 0..self.rows() {
            let dues = &mut self.board[due(row, 1)..due(row + 1, 1)];
            dues.copy_within(1.., 0);
            if !self.telling.slips(Slip::DueElevenStays) {
                dues[LAGS - 1] = 0;
            }
        }
    }

    /// Flow and available flow of every row, after the last right.
    fn report_rows(&self, report: &mut [u64]) {
        let rights = self.basin.sections.rights.len();
        let rows = self.rows();
        for row in 0..rows {
            if self.slips(Slip::FlowsThenAvailable) {
                report[report::flow(rights, 0) + row] = self.flow[row] as u64;
                report[report::flow(rights, 0) + rows + row] = self.available[row] as u64;
            } else {
                report[report::flow(rights, row)] = self.flow[row] as u64;
                report[report::available(rights, row)] = self.available[row] as u64;
            }
        }
        if self.slips(Slip::DeepLossFlowsOut) {
            report[report::flow(rights, rows - 1)] += self.deep_loss as u64;
        }
    }

    /// Step 4: every reservoir loses this month's depth over its area, or all that it has.
    fn evaporate(&mut self, report: &mut [u64]) {
        let mut start = report::evaporation(self.basin.sections.rights.len(), self.rows(), 0);
        start += self.slips(Slip::DeepLossBeforeEvaporation) as usize;
        let late = self.slips(Slip::DepthOfNextMonth) as usize;
        for (place, record) in self.basin.sections.reservoirs.iter().enumerate() {
            let reservoir = Reservoir::decode(record);
            let storage = if self.slips(Slip::EvaporationFromOldStorage) {
                self.storage_before[place]
            } else {
                self.storage[place]
            };
            let depth = reservoir.depths[(self.m + late) % MONTHS] as i64;
            let mut evaporation = area(self.telling, &reservoir.area_capacity, storage) * depth;
            if !self.slips(Slip::EvaporationNotCapped) {
                evaporation = evaporation.min(self.storage[place]);
            }
            self.storage[place] -= evaporation;
            report[start + place] = evaporation as u64;
        }
    }

    /// The month's deep loss is told behind all evaporations (02, No. 5).
    fn report_deep_loss(&self, report: &mut [u64]) {
        let sections = &self.basin.sections;
        let (rights, reservoirs) = (sections.rights.len(), sections.reservoirs.len());
        let before = if self.slips(Slip::DeepLossBeforeEvaporation) { 0 } else { reservoirs };
        let place = report::deep_loss(rights, self.rows(), before);
        if self.slips(Slip::ReportWithoutDeepLoss) && place == report.len() {
            return;
        }
        report[place] = self.deep_loss as u64;
    }

    /// Step 5: October follows September.
    fn end(mut self) {
        self.clear_words_late();
        for place in 0..self.basin.sections.reservoirs.len() {
            self.board[STORAGES + place] = self.storage[place] as u64;
        }
        self.board[MARKS] = self.marks;
        let next = self.m as u64 + 1;
        let wraps = next == MONTHS as u64 && !self.slips(Slip::MonthTwelve);
        self.board[NEXT_MONTH] = if wraps { 0 } else { next };
    }
}
