//! The words of the board that keep, for each right, the months in which it was short
//! (02, No. 6).

use super::{Grant, Month};
use crate::engine::board::SHORT;
use crate::engine::records::*;
use crate::engine::slip::{Slip, Telling};

impl<T: Telling> Month<'_, T> {
    pub(super) fn clear_words(&mut self) {
        self.board[SHORT..SHORT + self.basin.sections.rights.len()].fill(0);
    }

    /// This month's bit is 1 where the right is short and 0 where it is not, whatever it
    /// was; the bits of other months stay.
    pub(super) fn keep_short(&mut self, place: usize, right: &Right, grant: &Grant, short: bool) {
        let short = self.kept_as_short(right, grant, short);
        let (place, bit) = (self.word_of(place), self.bit());
        let others = if self.slips(Slip::OtherMonthsForgotten) {
            0
        } else if self.slips(Slip::ShortBitOnlySet) {
            u64::MAX
        } else {
            !(1 << bit)
        };
        let word = &mut self.board[SHORT + place];
        *word = *word & others | (short as u64) << bit;
    }

    // ---- the rest is there only for slips ----

    fn kept_as_short(&self, right: &Right, grant: &Grant, short: bool) -> bool {
        let amount = right.amounts[self.m] as i64;
        if self.slips(Slip::ShortOutOfSeason) {
            return grant.total() < amount;
        }
        if self.slips(Slip::ShortByNoGrant) {
            return grant.total() == 0 && amount > 0;
        }
        short && !(self.slips(Slip::ShortProjectNotKept) && right.kind == PROJECT)
    }

    fn word_of(&self, place: usize) -> usize {
        if self.slips(Slip::ShortBitOfNextRight) {
            (place + 1) % self.basin.sections.rights.len()
        } else {
            place
        }
    }

    fn bit(&self) -> usize {
        if self.slips(Slip::ShortBitReversed) {
            MONTHS - 1 - self.m
        } else if self.slips(Slip::ShortBitOfNextMonth) {
            (self.m + 1) % MONTHS
        } else {
            self.m
        }
    }

    pub(super) fn clear_words_late(&mut self) {
        if (self.m == 0 && self.slips(Slip::OctoberClearsWordsLast))
            || (self.m == MONTHS - 1 && self.slips(Slip::SeptemberClearsWords))
        {
            self.clear_words();
        }
    }
}
