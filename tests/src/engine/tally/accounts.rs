//! What has to hold of a tally after every call.

use super::shares::deep_loss;
use super::{PastMonth, Tally};
use crate::engine::records::*;

impl Tally {
    /// What came, by runoff and in what was stored or due at the start, is what left by the
    /// last row, was consumed, evaporated, went deep, is on its way or is stored.
    pub(super) fn assert_water_sum(&self, basin: &Basin) {
        let mut came: i128 = self.start.storages.iter().sum();
        came += self.start.dues.iter().flatten().sum::<i128>();
        let mut went: i128 = self.storages.iter().sum();
        went += self.pending(basin).iter().flatten().sum::<i128>();
        for month in &self.months {
            came += month.runoff.iter().map(|&r| r as i128).sum::<i128>();
            went += month.flow.last().unwrap();
            went += month.evaporation.iter().sum::<i128>();
            for (right, grant) in basin.rights.iter().zip(&month.grants) {
                if right.kind == DIRECT || right.kind == PROJECT {
                    went += grant.total() * right.efficiency as i128 / 100;
                }
            }
            went += deep_loss_of_month(basin, month);
        }
        assert_eq!(came, went, "water sum after {} months", self.months.len());
    }

    /// A reservoir holds what it began with and what was stored, without what was
    /// released and what evaporated.
    pub(super) fn assert_reservoir_accounts(&self, basin: &Basin) {
        for lake in 0..basin.reservoirs.len() {
            let mut storage = self.start.storages[lake];
            for month in &self.months {
                storage -= month.evaporation[lake];
                for (right, grant) in basin.rights.iter().zip(&month.grants) {
                    if right.reservoir as usize == lake {
                        match right.kind {
                            STORAGE => storage += grant.from_river,
                            PROJECT => storage -= grant.from_storage,
                            _ => unreachable!("only kinds 2 and 4 name a reservoir"),
                        }
                    }
                }
            }
            assert_eq!(storage, self.storages[lake], "account of reservoir {lake}");
        }
    }

    /// The deep loss of a month of an accepted file, for comparison with its report.
    pub fn deep_loss(&self, past: &PastMonth) -> i128 {
        self.basin.as_ref().map_or(0, |basin| deep_loss_of_month(basin, past))
    }
}

/// Worked out from what was granted (02, No. 5).
fn deep_loss_of_month(basin: &Basin, past: &PastMonth) -> i128 {
    let grants = basin.rights.iter().zip(&past.grants);
    grants.map(|(right, grant)| deep_loss(basin, right, grant.total())).sum()
}
