//! What a diversion returns, now and later (01, The board and one month, step 3), and what
//! of it goes deep (02, No. 5).

use super::{rows_of, Grant, Month};
use crate::engine::board::{due, LAGS};
use crate::engine::records::{Pattern, ReturnPoint, Right, MONTHS};
use crate::engine::slip::{Slip, Telling};
use crate::engine::split::{consumption, Split};

/// The months of a pattern up to the last one that brings something back.
fn up_to_last(pattern: &Pattern) -> &[u8] {
    let last = pattern.iter().rposition(|&percent| percent != 0);
    &pattern[..last.map_or(0, |last| last + 1)]
}

impl<T: Telling> Month<'_, T> {
    /// What of a diversion is not consumed returns: shared out to the points, and each
    /// point's part to the months of the pattern.
    pub(super) fn return_flow(&mut self, right: &Right, grant: &Grant) {
        if self.slips(Slip::DeepLossOfLastRight) {
            self.deep_loss = 0;
        }
        let diverted =
            if self.slips(Slip::RiverPartReturnsOnly) { grant.from_river } else { grant.total() };
        let returned = diverted - consumption(self.telling, diverted, right.efficiency);
        if returned == 0 || right.points == 0 {
            return;
        }
        let points = &right.returns[..right.points as usize];
        let basin = self.basin;
        let pattern = up_to_last(&basin.sections.patterns[right.pattern as usize]);
        if self.slips(Slip::MonthsBeforePoints) {
            return self.return_by_months(points, returned, pattern);
        }
        let deep_before = self.deep_loss;
        let mut over_points = Split::of(returned);
        for (place, point) in points.iter().enumerate() {
            let mut part = over_points.share(self.telling, point.percent);
            if self.slips(Slip::FirstPointTakesAll) {
                part = if place == 0 { returned } else { 0 };
            }
            let deep_loss = self.return_part(point.row as usize, part, pattern);
            if place == 0 || !self.slips(Slip::DeepLossOfFirstPoint) {
                self.deep_loss += deep_loss;
            }
        }
        if self.slips(Slip::DeepLossOfWholeReturn) {
            self.deep_loss = deep_before + self.deep_loss_of(returned, pattern);
        }
    }

    /// The part of one point, month by month; answers what of it goes deep.
    fn return_part(&mut self, row: usize, part: i64, pattern: &[u8]) -> i64 {
        let mut over_months = Split::of(part);
        for (lag, &percent) in pattern.iter().enumerate() {
            let share = over_months.share(self.telling, percent);
            self.return_share(row, lag, share);
        }
        let left = over_months.left(self.telling);
        if self.slips(Slip::DeepLossReturns) {
            self.return_share(row, MONTHS - 1, left);
            return 0;
        }
        left
    }

    /// Only for the slip: the points come first.
    fn return_by_months(&mut self, points: &[ReturnPoint], returned: i64, pattern: &[u8]) {
        let mut over_months = Split::of(returned);
        for (lag, &percent) in pattern.iter().enumerate() {
            let mut over_points = Split::of(over_months.share(self.telling, percent));
            for point in points {
                let share = over_points.share(self.telling, point.percent);
                self.return_share(point.row as usize, lag, share);
            }
        }
        self.deep_loss += over_months.left(self.telling);
    }

    /// Only for the slip: each point's part has its own.
    fn deep_loss_of(&self, returned: i64, pattern: &[u8]) -> i64 {
        let mut over_months = Split::of(returned);
        pattern.iter().for_each(|&percent| _ = over_months.share(self.telling, percent));
        over_months.left(self.telling)
    }

    /// A share of this month is in the river at once, available to later rights, from its
    /// row on downstream; a later one is due.
    fn return_share(&mut self, row: usize, lag: usize, share: i64) {
        if share == 0 {
            return;
        }
        if lag > 0 {
            let late = self.slips(Slip::DueOneMonthLate) as usize;
            self.board[due(row, (lag + late).min(LAGS))] += share as u64;
            return;
        }
        let mut reached = self.basin.network.path[row];
        if self.slips(Slip::ReturnAtRowOnly) {
            reached = 1 << row;
        }
        self.raise(reached, share);
        if self.slips(Slip::ReturnFlowOnly) {
            rows_of(reached).for_each(|row| self.available[row] -= share);
        }
        if self.slips(Slip::ReturnTwice) {
            rows_of(reached).for_each(|row| self.available[row] += share);
        }
    }
}
