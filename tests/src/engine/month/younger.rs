//! Only for slips: what younger rights would do to the elder ones before them in the list
//! (02, No. 8).

use super::Month;
use crate::engine::board::SHORT;
use crate::engine::records::*;
use crate::engine::slip::Telling;

impl<T: Telling> Month<'_, T> {
    pub(super) fn is_crowded(&self) -> bool {
        self.basin.sections.rights.len() > 8
    }

    /// The rights after a place of the list.
    fn younger(&self, elder: usize) -> impl Iterator<Item = (usize, Right)> + '_ {
        let rights = self.basin.sections.rights.iter().enumerate();
        rights.skip(elder + 1).map(|(place, record)| (place, Right::decode(record)))
    }

    /// Rows of the younger rights that were short in the month before, by the board's words.
    /// October has none, as it clears the words first.
    pub(super) fn younger_callers(&self, elder: usize) -> u64 {
        let before = (self.m + MONTHS - 1) % MONTHS;
        self.younger(elder)
            .filter(|(place, _)| self.board[SHORT + place] >> before & 1 == 1)
            .fold(0, |rows, (_, right)| rows | 1 << right.row)
    }

    /// What younger project rights want of the reservoir of this one.
    pub(super) fn asked_later(&self, elder: usize, right: &Right) -> i64 {
        self.younger(elder)
            .filter(|(_, later)| later.kind == PROJECT && later.reservoir == right.reservoir)
            .map(|(_, later)| self.scheduled(&later))
            .sum()
    }
}
