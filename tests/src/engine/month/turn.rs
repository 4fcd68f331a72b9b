//! The turn of one right (01, The board and one month, step 3): its demand, what it takes
//! from the river, and what it stores or has released.

use super::{rows_of, Grant, Month};
use crate::engine::board::TAKEN;
use crate::engine::records::*;
use crate::engine::slip::{Slip, Telling};

impl<T: Telling> Month<'_, T> {
    /// What a right wants in this month. A storage right wants no more than its limit
    /// leaves for the year and its reservoir has room for, and nothing once that has
    /// been filled in the year.
    fn demand(&self, place: usize, right: &Right) -> i64 {
        let mut amount = self.scheduled(right);
        if self.slips(Slip::DemandByNumberOfRights) && self.is_crowded() {
            amount /= 2;
        }
        if right.kind != STORAGE {
            return amount;
        }
        let reservoir = right.reservoir as usize;
        let marks = if self.slips(Slip::MarkNextMonth) { self.marks_before } else { self.marks };
        if marks >> reservoir & 1 == 1 && !self.slips(Slip::MarkIgnored) {
            return 0;
        }
        let mut limit_left = right.limit as i64 - self.board[TAKEN + place] as i64;
        if self.slips(Slip::LimitLeftIgnored) {
            limit_left = i64::MAX;
        }
        let storage = if self.slips(Slip::CapacityAtMonthsBeginning) {
            self.storage_before[reservoir]
        } else {
            self.storage[reservoir]
        };
        amount.min(limit_left).min(self.capacity(reservoir) - storage)
    }

    pub(super) fn scheduled(&self, right: &Right) -> i64 {
        let bit = if self.slips(Slip::MonthBitReversed) { MONTHS - 1 - self.m } else { self.m };
        let all = self.slips(Slip::MonthsWordZeroMeansAll) && right.months == 0;
        if right.months >> bit & 1 == 1 || all {
            right.amounts[self.m] as i64
        } else {
            0
        }
    }

    /// Step 3 for one right: its grant, reason and controlling station.
    pub(super) fn serve(&mut self, place: usize, right: &Right) -> (Grant, u64, u64) {
        let row = right.row as usize;
        let path = self.basin.network.path[row];
        let demand = self.demand(place, right);
        let callers = self.callers(place, right, path);
        let called = callers != 0;
        let looks_at = self.looks_at(right, path);
        let lowest = self.lowest_available(looks_at);
        // A called right leaves the river alone; another takes what it wants as far as
        // every row downstream can spare it.
        let from_river =
            if called { 0 } else { (demand - self.stored_first(right, demand)).min(lowest) };
        let river_low = from_river < demand && !called && right.kind != PROJECT;
        let low_row = if river_low { self.low_row(looks_at, lowest) } else { row };
        self.take_from_river(right, path, from_river);

        let from_storage = match right.kind {
            STORAGE => {
                self.store(place, right, from_river);
                0
            }
            PROJECT => self.release(place, right, demand - from_river, called),
            _ => 0,
        };
        let grant = Grant { from_river, from_storage };
        if right.kind == DIRECT || right.kind == PROJECT {
            self.return_flow(right, &grant);
        } else if self.slips(Slip::DeepLossWithoutPoints) {
            self.deep_loss += grant.total();
        }
        let short = self.is_short(right, &grant, demand);
        self.keep_short(place, right, &grant, short);
        let (reason, station) = self.reason(right, short, callers, low_row);
        self.served_rows |= ((demand > 0) as u64) << row;
        if short {
            self.short_rows |= self.rows_that_call(right);
        }
        self.shorts += if self.slips(Slip::ShortsCountCalled) { called } else { short } as u64;
        (grant, reason, station)
    }

    /// Rows of the rights that call this one: those on its path where a right has come
    /// off short in this month. An instream right takes nothing that another could have,
    /// so nobody calls it.
    fn callers(&self, place: usize, right: &Right, path: u64) -> u64 {
        if (right.kind == INSTREAM && !self.slips(Slip::InstreamCalled))
            || self.slips(Slip::CalledIgnored)
        {
            return 0;
        }
        if self.slips(Slip::CalledBeforeShort) {
            return self.served_rows & path;
        }
        if self.slips(Slip::CalledByOwnRowNot) {
            return self.short_rows & path & !(1 << right.row);
        }
        if self.slips(Slip::CalledByUpstream) {
            let upstream = |row: &usize| self.basin.network.on_path(right.row as usize, *row);
            return rows_of(self.short_rows).filter(upstream).fold(0, |set, row| set | 1 << row);
        }
        if self.slips(Slip::LaterRightsCallFirst) {
            return (self.short_rows | self.younger_callers(place)) & path;
        }
        self.short_rows & path
    }

    /// The rows whose available flow holds a right: its path; for an instream right its
    /// own row alone.
    fn looks_at(&self, right: &Right, path: u64) -> u64 {
        let own_row_only = right.kind == INSTREAM && !self.slips(Slip::InstreamLooksDownPath);
        if own_row_only || self.slips(Slip::OwnRowOnly) {
            1 << right.row
        } else {
            path
        }
    }

    /// Only for the slip: the river comes first, so nothing is kept for storage.
    fn stored_first(&self, right: &Right, demand: i64) -> i64 {
        if right.kind == PROJECT && self.slips(Slip::StorageFirst) {
            demand.min(self.storage[right.reservoir as usize])
        } else {
            0
        }
    }

    fn rows_that_call(&self, right: &Right) -> u64 {
        let silent = (self.slips(Slip::InstreamDoesNotCall) && right.kind == INSTREAM)
            || (self.slips(Slip::StorageDoesNotCall) && right.kind == STORAGE);
        if silent {
            0
        } else {
            1 << right.row
        }
    }

    pub(super) fn lowest_available(&self, rows: u64) -> i64 {
        let water =
            if self.slips(Slip::FlowInsteadOfAvailable) { &self.flow } else { &self.available };
        rows_of(rows).map(|row| water[row]).min().unwrap_or(0)
    }

    /// The first of these rows, from the right's own downstream, that can spare least
    /// (02, No. 2).
    fn low_row(&self, rows: u64, lowest: i64) -> usize {
        let mut low_rows = rows_of(rows).filter(|&row| self.available[row] == lowest);
        let named = if self.slips(Slip::RiverLowNamesLastOfLow) {
            low_rows.last()
        } else {
            low_rows.next()
        };
        named.unwrap_or(0) // only a slip finds none
    }

    /// What is taken is gone from the whole path. What an instream right is granted stays
    /// in the river, but is no longer available at its row.
    fn take_from_river(&mut self, right: &Right, path: u64, taken: i64) {
        if right.kind != INSTREAM {
            self.raise(path, -taken);
            return;
        }
        if self.slips(Slip::InstreamLowersPath) {
            rows_of(path).for_each(|row| self.available[row] -= taken);
        } else {
            self.available[right.row as usize] -= taken;
        }
        if self.slips(Slip::InstreamLowersFlow) {
            self.flow[right.row as usize] -= taken;
        }
    }

    pub(super) fn raise(&mut self, rows: u64, amount: i64) {
        for row in rows_of(rows) {
            self.flow[row] += amount;
            self.available[row] += amount;
        }
    }

    /// Stores a storage right's grant. One that is more than nothing and fills the
    /// reservoir marks it.
    fn store(&mut self, place: usize, right: &Right, stored: i64) {
        let reservoir = right.reservoir as usize;
        self.storage[reservoir] += stored;
        if !self.slips(Slip::TakenNotKept) {
            self.board[TAKEN + place] += stored as u64;
        }
        let granted = stored > 0 || self.slips(Slip::MarkByZeroGrant);
        if granted && self.storage[reservoir] == self.capacity(reservoir) {
            self.marks |= 1 << reservoir;
        }
    }

    /// Releases to a project right what the river did not give it, as far as there is
    /// any. The river carries it from the reservoir's row to the row above the right's,
    /// where it is available to nobody (002 makes it available, and begins a row lower).
    fn release(&mut self, place: usize, right: &Right, rest: i64, called: bool) -> i64 {
        let reservoir = right.reservoir as usize;
        let released = if self.slips(Slip::DrawAboveStorage) {
            rest
        } else if called && self.slips(Slip::CalledProjectWithoutStorage) {
            0
        } else if self.slips(Slip::StorageKeptForLater) {
            rest.min(self.storage[reservoir] - self.asked_later(place, right)).max(0)
        } else {
            rest.min(self.storage[reservoir])
        };
        self.storage[reservoir] -= released;
        let network = &self.basin.network;
        let lake_row = self.reservoir_row(reservoir);
        let mut carried_by = network.path[lake_row] & !network.path[right.row as usize];
        if self.slips(Slip::ReleaseSkipsLakeRow) {
            carried_by &= !(1 << lake_row);
        }
        if self.slips(Slip::ReleaseReachesRight) {
            carried_by |= 1 << right.row;
        }
        for row in rows_of(carried_by) {
            self.flow[row] += released;
            if self.telling.slips(Slip::ReleaseRaisesAvailable) {
                self.available[row] += released;
            }
        }
        released
    }
}
