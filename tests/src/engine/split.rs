//! Shares of an amount, consumption, and the area of a lake.

use super::records::Pair;
use super::slip::{Slip, Telling};

/// Splits an amount by percents, one share after the other. Rounded down is not the
/// share but the amount up to it, by the percents so far; a share is what that has
/// grown by. So rounding loses nothing: the shares of percents that sum to 100 add up to
/// the amount (01, The board and one month, step 3). What percents that sum to less leave
/// of it is the deep loss (02, No. 5).
pub struct Split {
    amount: i64,
    percents: i64,
    given: i64,
}

impl Split {
    #[inline(always)]
    pub fn of(amount: i64) -> Split {
        Split { amount, percents: 0, given: 0 }
    }

    #[inline(always)]
    pub fn share<T: Telling>(&mut self, telling: &T, percent: u8) -> i64 {
        self.percents += percent as i64;
        if telling.slips(Slip::SharesFlooredAlone) {
            let share = self.amount * percent as i64 / 100;
            self.given += share;
            return share;
        }
        let up_to_here = if telling.slips(Slip::SharesRoundedUp) {
            (self.amount * self.percents + 99) / 100
        } else {
            self.amount * self.percents / 100
        };
        let share = up_to_here - self.given;
        self.given = up_to_here;
        share
    }

    /// What no share so far has of the amount; after the last of them, the deep loss.
    #[inline(always)]
    pub fn left<T: Telling>(&self, telling: &T) -> i64 {
        if telling.slips(Slip::DeepLossFloored) {
            return self.amount * (100 - self.percents) / 100;
        }
        self.amount - self.given
    }
}

/// What of a grant is consumed: its efficiency in hundredths, rounded down.
#[inline(always)]
pub fn consumption<T: Telling>(telling: &T, grant: i64, efficiency: u8) -> i64 {
    let hundredths = grant * efficiency as i64;
    if telling.slips(Slip::ConsumptionRoundsUp) {
        (hundredths + 99) / 100
    } else if telling.slips(Slip::EfficiencyReturns) {
        grant - hundredths / 100
    } else {
        hundredths / 100
    }
}

/// The area of a lake, read on the straight line between the two pairs around the
/// storage (02, No. 1). Rounded down is how far it lies from the lower pair's area, be the
/// upper one larger or smaller. A storage beyond the table has the last area.
#[inline(always)]
pub fn area<T: Telling>(telling: &T, area_capacity: &[Pair; 4], storage: i64) -> i64 {
    let mut low = 0; // the first storage is 0
    while low < 3 && area_capacity[low + 1].storage as i64 <= storage {
        low += 1;
    }
    if low == 3 {
        if !telling.slips(Slip::AreaCarriedOn) {
            return area_capacity[3].area as i64;
        }
        low = 2;
    }
    let (lower, upper) = (area_capacity[low], area_capacity[low + 1]);
    if telling.slips(Slip::AreaInSteps) {
        return lower.area as i64;
    }
    let span = (upper.storage - lower.storage) as u64;
    let above = (storage - lower.storage as i64) as u64;
    let apart = upper.area.abs_diff(lower.area) as u64;
    if lower.area <= upper.area {
        return (lower.area as u64 + apart * above / span) as i64;
    }
    if telling.slips(Slip::AreaFlooredFromAbove) {
        return (upper.area as u64 + apart * (span - above) / span) as i64;
    }
    (lower.area as u64 - apart * above / span) as i64
}
