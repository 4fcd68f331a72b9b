//! Board, report and short months against what the tally keeps.

use river_tests::engine::board::*;
use river_tests::engine::report;
use river_tests::engine::short_months;
use river_tests::engine::tally::{PastMonth, Reason, Tally};
use river_tests::generate::{River, Rng};

#[derive(Default)]
pub struct Compared {
    pub calls: usize,
    pub refused: usize,
    pub marked: usize,
    /// Grants by reason.
    pub reasons: [usize; 4],
    /// Months in which water went deep.
    pub deep: usize,
    /// Rights whose short months were asked for, by how many they were.
    pub short_months: [usize; 13],
}

impl Compared {
    /// How many times a right's short months were asked for.
    pub fn asked(&self) -> usize {
        self.short_months.iter().sum()
    }
}

/// Where a list starts: on the fresh board, or on any that is possible.
pub struct Start {
    pub tally: Tally,
    pub board: Vec<u64>,
    pub fresh: bool,
}

impl Start {
    pub fn of(river: &River, rng: &mut Rng, fresh: bool) -> Start {
        if !fresh {
            let board = river.possible_board(rng);
            return Start { tally: Tally::on_board(&river.file, &board), board, fresh };
        }
        let mut board = vec![0; BOARD];
        assert_eq!(river_tests::engine::fresh(&river.file, &mut board), (0, 0));
        Start { tally: Tally::new(&river.file), board, fresh }
    }
}

/// The short months of every right, and of one that is not there, by the call. From the fresh
/// board on, the grants of the present water year are counted here once more: every twelfth
/// month is a September, and its year is the present one until the next October.
pub fn compare_short_months(river: &River, at: &Start, compared: &mut Compared) {
    let rights = river.basin.rights.len();
    let year = at.tally.months.chunks(12).next_back().unwrap_or(&[]);
    for right in 0..rights {
        let told = short_months(&river.file, &at.board, right);
        assert_eq!(told, [0, 0, at.tally.short_months(right)], "right {right}");
        if at.fresh {
            let short = |past: &&PastMonth| past.grants[right].reason != Reason::NotShort;
            assert_eq!(told[2], year.iter().filter(short).count() as u64, "right {right}");
        }
        compared.short_months[told[2] as usize] += 1;
    }
    assert_eq!(short_months(&river.file, &at.board, rights), [0, 0, 0]);
}

pub fn compare_board(tally: &Tally, board: &[u64]) {
    let mut expected = vec![0; BOARD];
    expected[NEXT_MONTH] = tally.m as u64;
    for (place, &storage) in tally.storages.iter().enumerate() {
        expected[STORAGES + place] = storage as u64;
        expected[MARKS] |= (tally.marks[place] as u64) << place;
    }
    for (place, &taken) in tally.taken.iter().enumerate() {
        expected[TAKEN + place] = taken as u64;
    }
    for (row, lags) in tally.pending_returns().iter().enumerate() {
        for k in 1..=11 {
            expected[due(row, k)] = lags[k - 1] as u64;
        }
    }
    for place in 0..tally.taken.len() {
        expected[SHORT + place] = tally.short_word(place);
    }
    assert_eq!(board, expected);
}

/// A report, of the least length or longer, against the tally's month that it tells.
pub fn compare_report(tally: &Tally, past: &PastMonth, report: &[u64], compared: &mut Compared) {
    for (place, grant) in past.grants.iter().enumerate() {
        let reason = grant.reason.number();
        assert_eq!(report[report::from_river(place)], grant.from_river as u64);
        assert_eq!(report[report::from_storage(place)], grant.from_storage as u64);
        assert_eq!(report[report::reason(place)], reason);
        assert_eq!(report[report::station(place)], grant.station as u64);
        compared.reasons[reason as usize] += 1;
    }
    let (rights, rows) = (past.grants.len(), past.flow.len());
    for row in 0..rows {
        assert_eq!(report[report::flow(rights, row)], past.flow[row] as u64);
        assert_eq!(report[report::available(rights, row)], past.available[row] as u64);
    }
    for (lake, evaporation) in past.evaporation.iter().enumerate() {
        assert_eq!(report[report::evaporation(rights, rows, lake)], *evaporation as u64);
    }
    let deep_loss = tally.deep_loss(past);
    let place = report::deep_loss(rights, rows, past.evaporation.len());
    assert_eq!(report[place], deep_loss as u64);
    compared.deep += (deep_loss > 0) as usize;
}
