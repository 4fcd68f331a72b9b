//! The board: its places, which boards are possible, fresh and stock.

use super::check::{judge, Judged, Refusal};
use super::network::Network;
use super::records::*;
use super::slip::{Slip, Telling};
use super::Answer;

/// Numbers on a board (01, The board and one month; 02, No. 6).
pub const BOARD: usize = SHORT + MOST_RIGHTS;
pub const NEXT_MONTH: usize = 0;
pub const STORAGES: usize = 1;
pub const MARKS: usize = 9;
pub const TAKEN: usize = 10;
pub const DUES: usize = 266;
/// A word for each right, with bit m for a month m of the water year in which it was short.
pub const SHORT: usize = 970;
/// Dues kept per row, k = 1 to 11.
pub const LAGS: usize = 11;

/// Place of what returns at a row k months after the last month that was run.
pub const fn due(row: usize, k: usize) -> usize {
    DUES + LAGS * row + (k - 1)
}

/// Most that can be due at k: 256 rights of 1,000,000,000 in each of the
/// 12 - k months whose diversions can still return then.
pub const fn most_due(k: usize) -> u64 {
    (12 - k as u64) * 256_000_000_000
}

/// A list of a wrong length.
pub const WRONG_LENGTH: Refusal = Refusal { number: 6, place: 0 };
/// A board that no run of months can leave.
pub const NOT_POSSIBLE: Refusal = Refusal { number: 7, place: 0 };

/// Whether a board is possible: every number is within its bound, and nothing stands
/// where the basin has no reservoir, right or row (01, The board and one month).
pub fn possible<T: Telling>(telling: &T, basin: &Judged, board: &[u64]) -> bool {
    let Judged { sections, .. } = basin;
    let rights = sections.rights.len();
    let reservoirs = sections.reservoirs.len();
    let rows = sections.stations.len();
    let month_fits =
        board[NEXT_MONTH] < 12 || (telling.slips(Slip::BoardAnyMonth) && board[NEXT_MONTH] == 12);
    let marks_fit = board[MARKS] >> reservoirs == 0 || telling.slips(Slip::BoardMarksAny);
    let empty_fits = telling.slips(Slip::BoardEmptyPlacesAny)
        || (all_zero(&board[STORAGES + reservoirs..MARKS])
            && all_zero(&board[TAKEN + rights..DUES])
            && all_zero(&board[DUES + LAGS * rows..SHORT]));
    month_fits
        && marks_fit
        && empty_fits
        && storages_fit(telling, basin, board)
        && taken_fits(telling, basin, board)
        && (0..rows).all(|row| dues_fit(telling, &board[due(row, 1)..]))
        && words_fit(telling, board, rights)
}

/// All numbers joined by `or`: all are gone through, without a branch at each, since most of a
/// small basin's board are places that it does not use.
fn union(places: &[u64]) -> u64 {
    places.iter().fold(0, |bits, number| bits | number)
}

fn all_zero(places: &[u64]) -> bool {
    union(places) == 0
}

fn storages_fit<T: Telling>(telling: &T, basin: &Judged, board: &[u64]) -> bool {
    let reservoirs = basin.sections.reservoirs.iter();
    telling.slips(Slip::BoardStorageAny)
        || reservoirs
            .zip(&board[STORAGES..])
            .all(|(reservoir, &storage)| storage <= u32_at(reservoir, 4) as u64)
}

/// The yearly limit of kinds 1 to 3 is 0, so theirs is 0 too.
fn taken_fits<T: Telling>(telling: &T, basin: &Judged, board: &[u64]) -> bool {
    let rights = basin.sections.rights.iter();
    telling.slips(Slip::BoardTakenAny)
        || rights.zip(&board[TAKEN..]).all(|(right, &taken)| taken <= u32_at(right, 16) as u64)
}

fn dues_fit<T: Telling>(telling: &T, dues: &[u64]) -> bool {
    (1..=LAGS).all(|k| {
        let most = if telling.slips(Slip::BoardDueFlat) {
            most_due(1)
        } else if telling.slips(Slip::BoardDueOneLess) {
            most_due(k + 1)
        } else {
            most_due(k)
        };
        dues[k - 1] <= most
    })
}

/// Of the words that are there nothing stands above the bit of September, and of the others
/// nothing at all (02, No. 6). Any months may be told, those that are still to be run among
/// them.
fn words_fit<T: Telling>(telling: &T, board: &[u64], rights: usize) -> bool {
    let (words, others) = board[SHORT..].split_at(rights);
    let mut all = union(words);
    if telling.slips(Slip::BoardShortLowHalfOnly) {
        all &= u32::MAX as u64;
    }
    let bits = if telling.slips(Slip::BoardShortBit12) {
        13
    } else if telling.slips(Slip::BoardShortWithoutSeptember) {
        11
    } else if telling.slips(Slip::BoardShortRunMonthsOnly) && board[NEXT_MONTH] > 0 {
        board[NEXT_MONTH]
    } else {
        MONTHS as u64
    };
    (all >> bits == 0 || telling.slips(Slip::BoardShortAny))
        && (all_zero(others) || telling.slips(Slip::BoardShortOfNoRight))
}

/// The board on which a basin begins: the reservoirs hold what the file says, nothing is
/// marked, taken or due, and no right has been short.
pub fn fresh<T: Telling>(telling: &T, file: &[u8], board: &mut [u64]) -> Answer {
    let mut network = Network::room();
    let basin = match judge(telling, file, &mut network) {
        Ok(basin) => basin,
        Err(refusal) => return refusal.answer(),
    };
    let old_length = telling.slips(Slip::FreshBoardOf970) && board.len() == SHORT;
    if board.len() != BOARD && !old_length {
        return WRONG_LENGTH.answer();
    }
    if telling.slips(Slip::FreshAddsOntoBoard) {
        board[..DUES].fill(0);
        board[SHORT..].fill(0);
    } else if telling.slips(Slip::FreshKeepsShortWords) {
        board[..SHORT].fill(0);
    } else {
        board.fill(0);
    }
    for (place, reservoir) in basin.sections.reservoirs.iter().enumerate() {
        board[STORAGES + place] = u32_at(reservoir, 8) as u64;
    }
    (0, 0)
}

/// What is turned down of a board alone, by a call that is lent no other list: refusals 6 and 7.
pub fn judge_whole_board<T: Telling>(
    telling: &T,
    basin: &Judged,
    board: &[u64],
) -> Result<(), Refusal> {
    if board.len() != BOARD {
        return Err(WRONG_LENGTH);
    }
    if !possible(telling, basin, board) {
        return Err(NOT_POSSIBLE);
    }
    Ok(())
}

/// Number and place, then what the reservoirs hold and what is due, both summed; a
/// refused call sums nothing (01, Stock, and the C caller).
pub fn stock<T: Telling>(telling: &T, file: &[u8], board: &[u64]) -> [u64; 4] {
    let mut network = Network::room();
    let basin = match judge(telling, file, &mut network) {
        Ok(basin) => basin,
        Err(refusal) => return [refusal.number, refusal.place, 0, 0],
    };
    let storages = || board[STORAGES..MARKS].iter().fold(0, |sum: u64, &s| sum.wrapping_add(s));
    if let Err(refusal) = judge_whole_board(telling, &basin, board) {
        let tells = telling.slips(Slip::RefusedStockTold) && refusal == NOT_POSSIBLE;
        return [refusal.number, refusal.place, if tells { storages() } else { 0 }, 0];
    }
    let end = if telling.slips(Slip::StockSumsShortWords) { BOARD } else { SHORT };
    let dues = if telling.slips(Slip::StockFirstDueOnly) {
        board[DUES..SHORT].iter().step_by(LAGS).sum()
    } else {
        board[DUES..end].iter().fold(0, |sum: u64, &d| sum.wrapping_add(d))
    };
    [0, 0, storages(), dues]
}
