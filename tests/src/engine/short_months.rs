//! The short months of a right, read off a board (02, No. 6).

use super::board::*;
use super::check::{judge, Refusal};
use super::network::Network;
use super::slip::{Slip, Telling};

/// Number and place, then in how many months of its water year a right was short. A refused
/// call tells no month, and of a right that the basin lacks there is none to tell.
pub fn short_months<T: Telling>(telling: &T, file: &[u8], board: &[u64], right: usize) -> [u64; 3] {
    let mut network = Network::room();
    let basin = match judge(telling, file, &mut network) {
        Ok(basin) => basin,
        Err(refusal) => return [refusal.number, refusal.place, 0],
    };
    let rights = basin.sections.rights.len();
    let right = place(telling, right);
    if right >= rights && telling.slips(Slip::MissingRightBeforeBoard) {
        return [0, 0, 0];
    }
    if let Err(refusal) = judge_whole_board(telling, &basin, lent(telling, board)) {
        return refused(telling, refusal, board, right, rights);
    }
    if right >= rights {
        return missing(telling, board, right);
    }
    [0, 0, months(telling, &board[..SHORT + rights], right)]
}

fn ones(word: u64) -> u64 {
    word.count_ones() as u64
}

/// The months that are set in a right's word.
fn months<T: Telling>(telling: &T, board: &[u64], right: usize) -> u64 {
    let word = board[SHORT + right];
    if telling.slips(Slip::ShortMonthsFromNovember) {
        return ones(word >> 1);
    }
    if telling.slips(Slip::ShortMonthsUpToBoardsMonth) {
        return ones(word & ((1 << board[NEXT_MONTH]) - 1));
    }
    if telling.slips(Slip::ShortMonthsOfAllRights) {
        return board[SHORT..].iter().map(|&word| ones(word)).sum();
    }
    if telling.slips(Slip::ShortMonthsOfTaken) {
        return ones(board[TAKEN + right]);
    }
    if telling.slips(Slip::ShortMonthsCountedFromOne) {
        return ones(board[SHORT + right.saturating_sub(1)]);
    }
    if telling.slips(Slip::ShortMonthsAsWord) {
        return word;
    }
    ones(word)
}

fn missing<T: Telling>(telling: &T, board: &[u64], right: usize) -> [u64; 3] {
    if telling.slips(Slip::MissingRightRefused) {
        return [5, right as u64, 0];
    }
    [0, 0, if telling.slips(Slip::MissingRightAsFirst) { ones(board[SHORT]) } else { 0 }]
}

fn refused<T: Telling>(
    telling: &T,
    refusal: Refusal,
    board: &[u64],
    right: usize,
    rights: usize,
) -> [u64; 3] {
    // Only slips look at the word of a board that is turned down.
    if refusal == NOT_POSSIBLE && right < rights {
        let months = ones(board[SHORT + right]);
        if telling.slips(Slip::ShortMonthsOfAnyBoard) {
            return [0, 0, months];
        }
        if telling.slips(Slip::RefusedShortMonthsTold) {
            return [refusal.number, refusal.place, months];
        }
    }
    [refusal.number, refusal.place, 0]
}

// ---- only for slips: a right's place and a board count as a whole ----

fn place<T: Telling>(telling: &T, right: usize) -> usize {
    if telling.slips(Slip::RightsLowByteOnly) {
        right & 0xff
    } else if telling.slips(Slip::RightsLowHalfOnly) {
        right & 0xffff_ffff
    } else {
        right
    }
}

fn lent<'a, T: Telling>(telling: &T, board: &'a [u64]) -> &'a [u64] {
    let cut = telling.slips(Slip::ShortMonthsOfLongerBoard) && board.len() > BOARD;
    if cut {
        &board[..BOARD]
    } else {
        board
    }
}
