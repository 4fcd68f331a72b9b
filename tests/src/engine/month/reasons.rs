//! Who is short, why, and which station is named for it.

use super::{Grant, Month};
use crate::engine::records::*;
use crate::engine::report;
use crate::engine::slip::{Slip, Telling};

impl<T: Telling> Month<'_, T> {
    /// Whether a right got less than it wanted, from river and storage together.
    pub(super) fn is_short(&self, right: &Right, grant: &Grant, demand: i64) -> bool {
        if self.slips(Slip::ShortByRiverOnly) {
            return grant.from_river < demand;
        }
        if self.slips(Slip::StorageShortByAmount) && right.kind == STORAGE {
            return grant.total() < self.scheduled(right);
        }
        grant.total() < demand
    }

    /// The reason, and the number of the station that it names. Where several reasons fit,
    /// 3 goes before 1 and 1 before 2.
    pub(super) fn reason(
        &self,
        right: &Right,
        short: bool,
        callers: u64,
        low_row: usize,
    ) -> (u64, u64) {
        if !short {
            return (0, 0);
        }
        let storage_low =
            right.kind == PROJECT && !(self.slips(Slip::CalledBeforeStorageLow) && callers != 0);
        let (reason, mut row) = if storage_low {
            (3, self.reservoir_row(right.reservoir as usize))
        } else if callers != 0 {
            (1, self.caller(callers))
        } else {
            (2, low_row)
        };
        if (reason == 1 && self.slips(Slip::CalledByOwnShortage))
            || (reason == 2 && self.slips(Slip::RiverLowNamesOwnRow))
            || (reason == 3 && self.slips(Slip::ProjectNamesOwnRow))
        {
            row = right.row as usize;
        }
        if reason == 2 && self.slips(Slip::RiverLowNamesLastRow) {
            row = self.rows() - 1;
        }
        (reason, self.station_number(row))
    }

    /// Of the rows whose rights call, the first on the path (02, No. 2).
    fn caller(&self, callers: u64) -> usize {
        if self.slips(Slip::CalledNamesLastCaller) {
            callers.ilog2() as usize
        } else {
            callers.trailing_zeros() as usize
        }
    }

    /// Only for the slip: seniors come back for water that returned after them.
    pub(super) fn serve_seniors_again(&mut self, report: &mut [u64]) {
        for (place, record) in self.basin.sections.rights.iter().enumerate() {
            let right = Right::decode(record);
            if right.kind != DIRECT || report[report::reason(place)] == 0 {
                continue;
            }
            let path = self.basin.network.path[right.row as usize];
            let lacking = self.scheduled(&right) - report[report::from_river(place)] as i64;
            let more = lacking.min(self.lowest_available(path));
            self.raise(path, -more);
            report[report::from_river(place)] += more as u64;
        }
    }
}
