//! The engine: the calls of the rules on bytes and lists of numbers.
//!
//! "01" in these files is the rules document of the product, the rules of
//! allocation; where it is cited, the heading follows. "02" is the list of changes asked
//! for since, cited by number. "002" is the manual of WIRSOS, the program whose method
//! the rules take up and, in places, leave. Two words differ from 01's, as the field has
//! its own: the *available flow* at a row is what 01 calls open water, and the *demand*
//! of a right is what 01 calls its ask.

pub mod board;
pub mod book;
pub mod check;
pub mod month;
pub mod network;
pub mod records;
pub mod report;
pub mod sections;
pub mod short_months;
pub mod slip;
pub mod split;
pub mod store;
pub mod tally;
pub mod year;

use check::judge;
use network::Network;
use slip::Faithful;

/// What a call answers, 64 bits each: the number and place of a refusal, or 0 and what
/// the call counts.
pub type Answer = (u64, u64);

/// Number and place of what is wrong with a file; 0, 0 if nothing is.
pub fn check(file: &[u8]) -> Answer {
    match judge(&Faithful, file, &mut Network::room()) {
        Ok(_) => (0, 0),
        Err(refusal) => refusal.answer(),
    }
}

/// Writes the board on which a basin begins.
pub fn fresh(file: &[u8], board: &mut [u64]) -> Answer {
    board::fresh(&Faithful, file, board)
}

/// Runs one month. Answers 0 and the number of rights short, or a refusal.
pub fn month(file: &[u8], runoff: &[u32], board: &mut [u64], report: &mut [u64]) -> Answer {
    month::month(&Faithful, file, runoff, board, report)
}

/// Number, place, sum of storages, sum of dues.
pub fn stock(file: &[u8], board: &[u64]) -> [u64; 4] {
    board::stock(&Faithful, file, board)
}

/// Number, place, and in how many months of the board's water year a right was short.
pub fn short_months(file: &[u8], board: &[u64], right: usize) -> [u64; 3] {
    short_months::short_months(&Faithful, file, board, right)
}

/// The body of a year, as a part of the book; empty where the look-up is refused.
pub fn year_body<'a>(file: &[u8], book: &'a [u8], year: u32) -> &'a [u8] {
    book::year_body(&Faithful, file, book, year).unwrap_or(&[])
}

/// Number and place of a look-up; 0, 0 for a year that is found.
pub fn find_year(file: &[u8], book: &[u8], year: u32) -> Answer {
    book::find_year(&Faithful, file, book, year)
}

/// Runs what is left of a year on a board. Answers 0 and the number of month calls made,
/// or a refusal.
pub fn run_year(
    file: &[u8],
    book: &[u8],
    year: u32,
    board: &mut [u64],
    reports: &mut [u64],
) -> Answer {
    year::run_year(&Faithful, file, book, year, board, reports)
}

/// Saves a board in a store under a name; 0, 0 or a refusal.
pub fn save(store: &mut [u8], name: &[u8], board: &[u64]) -> Answer {
    store::save(&Faithful, store, name, board)
}

/// Puts the numbers saved under a name on a board; 0, 0 or a refusal.
pub fn recall(store: &[u8], name: &[u8], board: &mut [u64]) -> Answer {
    store::recall(&Faithful, store, name, board)
}

/// Drops the board of a name; 0, 0 or a refusal.
pub fn drop_name(store: &mut [u8], name: &[u8]) -> Answer {
    store::drop_name(&Faithful, store, name)
}
