//! The run of a year: the month calls that are left of it on a board, all or none
//! (02, No. 4).

use super::board::*;
use super::book::{find_body, sheet_bytes};
use super::check::{judge, Judged, Refusal};
use super::month::{judge_runoff, run_month};
use super::network::Network;
use super::records::*;
use super::slip::{Slip, Telling};
use super::Answer;

/// The call. Answers number and place, or 0 and the number of month calls made. A
/// refused run changes neither board nor list.
pub fn run_year<T: Telling>(
    telling: &T,
    file: &[u8],
    book: &[u8],
    year: u32,
    board: &mut [u64],
    reports: &mut [u64],
) -> Answer {
    let mut network = Network::room();
    let basin = match judge(telling, file, &mut network) {
        Ok(basin) => basin,
        Err(refusal) => return refusal.answer(),
    };
    match judge_run(telling, &basin, book, year, board, reports.len()) {
        Ok(sheets) => run(telling, &basin, sheets, board, reports),
        Err(refusal) => refusal.answer(),
    }
}

/// What is turned down of a sound file: refusals 9, 10, 6, 7, 8, in this order. Of a run
/// that is not, the sheets that are left of the body, from the board's month on.
pub fn judge_run<'a, T: Telling>(
    telling: &T,
    basin: &Judged,
    book: &'a [u8],
    year: u32,
    board: &[u64],
    reports: usize,
) -> Result<&'a [u8], Refusal> {
    let stations = basin.sections.stations.len();
    if telling.slips(Slip::ListBeforeYear) {
        judge_lengths(telling, basin, board, reports)?;
    }
    let body = find_body(telling, stations, book, year)?;
    if telling.slips(Slip::BoardBeforeList) && board.len() == BOARD {
        judge_board(telling, basin, board)?;
    }
    judge_lengths(telling, basin, board, reports)?;
    if telling.slips(Slip::MonthAboveElevenRunsNothing) && board[NEXT_MONTH] > 11 {
        return Ok(&[]);
    }
    judge_board(telling, basin, board)?;
    let from = if telling.slips(Slip::RunFromOctober) { 0 } else { board[NEXT_MONTH] as usize };
    let left = &body[sheet_bytes(stations) * from..];
    let looked_at = if telling.slips(Slip::SheetsBeforeLookedAt) { body } else { left };
    if judges_first(telling) {
        judge_sheets(telling, stations, looked_at)?;
    }
    Ok(left)
}

/// A whole board, and room for the reports of twelve months, however few are left.
fn judge_lengths<T: Telling>(
    telling: &T,
    basin: &Judged,
    board: &[u64],
    reports: usize,
) -> Result<(), Refusal> {
    let left = match board.first() {
        Some(&m) if telling.slips(Slip::ListForCallsLeft) => MONTHS.saturating_sub(m as usize),
        _ => MONTHS,
    };
    if board.len() != BOARD || reports < left * basin.sections.report_length() {
        return Err(WRONG_LENGTH);
    }
    Ok(())
}

fn judge_board<T: Telling>(telling: &T, basin: &Judged, board: &[u64]) -> Result<(), Refusal> {
    if possible(telling, basin, board) {
        Ok(())
    } else {
        Err(NOT_POSSIBLE)
    }
}

/// The first sheet with runoff over its limit is that of the first call to be refused:
/// the others keep a possible board possible.
fn judge_sheets<T: Telling>(telling: &T, stations: usize, sheets: &[u8]) -> Result<(), Refusal> {
    let mut room = [0; MOST_STATIONS];
    for (call, part) in sheets.chunks_exact(sheet_bytes(stations)).enumerate() {
        judge_runoff(telling, decode(part, &mut room)).map_err(|refusal| {
            if telling.slips(Slip::RefusalNamesCall) {
                Refusal { place: call as u64, ..refusal }
            } else {
                refusal
            }
        })?;
    }
    Ok(())
}

/// The numbers of a sheet.
fn decode<'a>(part: &[u8], room: &'a mut [u32; MOST_STATIONS]) -> &'a [u32] {
    let numbers = part.as_chunks().0;
    for (place, &number) in room.iter_mut().zip(numbers) {
        *place = u32::from_le_bytes(number);
    }
    &room[..numbers.len()]
}

/// The month calls, each with a report of the least length behind the one before. All has
/// been judged: every month leaves a possible board.
fn run<T: Telling>(
    telling: &T,
    basin: &Judged,
    sheets: &[u8],
    board: &mut [u64],
    reports: &mut [u64],
) -> Answer {
    let sections = &basin.sections;
    let length = sections.report_length();
    let mut room = [0; MOST_STATIONS];
    let mut calls = 0;
    let words = telling.slips(Slip::RunKeepsNoShortMonths).then(|| board[SHORT..].to_vec());
    for part in sheets.chunks_exact(sheet_bytes(sections.stations.len())) {
        let runoff = decode(part, &mut room);
        if !judges_first(telling) {
            if let Err(refusal) = judge_runoff(telling, runoff) {
                let stops = telling.slips(Slip::RunStopsAtRefusal);
                return if stops { (0, calls as u64) } else { refusal.answer() };
            }
        }
        let place = if telling.slips(Slip::ReportsOnEachOther) {
            0
        } else if telling.slips(Slip::ReportsByMonth) {
            board[NEXT_MONTH] as usize
        } else {
            calls
        };
        let report = &mut reports[length * place..length * (place + 1)];
        run_month(telling, basin, runoff, board, report);
        calls += 1;
    }
    if telling.slips(Slip::ReportsTailCleared) {
        reports[length * calls..].fill(0);
    }
    if let Some(words) = words {
        board[SHORT..].copy_from_slice(&words);
    }
    (0, if telling.slips(Slip::TwelveAnswered) { 12 } else { calls as u64 })
}

/// Whether all sheets are judged before the first month is run.
fn judges_first<T: Telling>(telling: &T) -> bool {
    !telling.slips(Slip::RefusedRunBegun) && !telling.slips(Slip::RunStopsAtRefusal)
}
