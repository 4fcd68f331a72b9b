//! What a month call turns down of a sound file: refusals 6, 7 and 8, of which the lowest
//! counts (01, Numbers for what is turned down).

use crate::engine::board::*;
use crate::engine::check::{Judged, Refusal};
use crate::engine::records::MOST_RUNOFF;
use crate::engine::slip::{Slip, Telling};
use crate::engine::Answer;

pub fn judge_call<T: Telling>(
    telling: &T,
    basin: &Judged,
    runoff: &[u32],
    board: &[u64],
    report: &[u64],
) -> Result<(), Refusal> {
    let rows = basin.sections.stations.len();
    let report_length = basin.sections.report_length();
    // A number of runoff to a station, a whole board, room for the report.
    let runoff_fits =
        runoff.len() == rows || (telling.slips(Slip::RunoffAtLeast) && runoff.len() > rows);
    let board_fits =
        board.len() == BOARD || (telling.slips(Slip::BoardAtLeast) && board.len() > BOARD);
    let least = report_length - telling.slips(Slip::ReportWithoutDeepLoss) as usize;
    let report_fits = report.len() >= least
        && !(telling.slips(Slip::ReportExact) && report.len() > report_length);
    if !runoff_fits || !board_fits || !report_fits {
        return Err(WRONG_LENGTH);
    }
    if telling.slips(Slip::RunoffBeforeBoard) {
        judge_runoff(telling, runoff)?;
    }
    if !possible(telling, basin, board) {
        return Err(NOT_POSSIBLE);
    }
    judge_runoff(telling, runoff)
}

/// Only a slip touches the board of a refused call.
pub fn refuse<T: Telling>(telling: &T, refusal: Refusal, board: &mut [u64]) -> Answer {
    if telling.slips(Slip::RefusedOctoberClearsWords) && board.first() == Some(&0) {
        board.iter_mut().skip(SHORT).for_each(|word| *word = 0);
    }
    refusal.answer()
}

/// Runoff over its limit is refused at the first row that has it.
pub fn judge_runoff<T: Telling>(telling: &T, runoff: &[u32]) -> Result<(), Refusal> {
    let most = MOST_RUNOFF - telling.slips(Slip::RunoffLimitTight) as u32;
    let over = |&number: &u32| number > most;
    let row = if telling.slips(Slip::RunoffLastAtFault) {
        runoff.iter().rposition(over)
    } else {
        runoff.iter().position(over)
    };
    match row {
        Some(row) => Err(Refusal { number: 8, place: row as u64 }),
        None => Ok(()),
    }
}
