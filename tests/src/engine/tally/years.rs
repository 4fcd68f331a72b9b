//! A year's run in a list of calls: an accepted one counts as its month calls (02, No. 4).
//! The book is read apart from the engine's: it has to be the one that its own years and
//! bodies would be written as.

use super::Tally;
use crate::engine::records::*;
use crate::engine::Answer;

type Sheet = Vec<u32>;

impl Tally {
    /// One run. It is told what the call is, but for the board, and of the list only how
    /// long it is; it answers as the call does. The month to begin with is the tally's.
    pub fn run_year(&mut self, book: &[u8], year: u32, list_length: usize) -> Answer {
        let basin = match &self.basin {
            Ok(basin) => basin.clone(),
            Err(refusal) => return refusal.answer(),
        };
        let answer = match sheets_left(&basin, book, year, list_length, self.m) {
            Ok(sheets) => {
                for sheet in &sheets {
                    self.accepted(&basin, sheet);
                }
                (0, sheets.len() as u64)
            }
            Err(refusal) => refusal,
        };
        self.assert_water_sum(&basin);
        self.assert_reservoir_accounts(&basin);
        answer
    }
}

/// The sheets of a year from month m on, or what is turned down: 9, 10, 6, 8. A board
/// kept by the rules is never the cause, so 7 is left out.
fn sheets_left(
    basin: &Basin,
    book: &[u8],
    year: u32,
    list_length: usize,
    m: usize,
) -> Result<Vec<Sheet>, Answer> {
    let years = years_of(book, basin.stations.len()).ok_or((9, 0))?;
    let (_, sheets) = years.into_iter().find(|&(listed, _)| listed == year).ok_or((10, 0))?;
    if list_length < 12 * basin.report_length() {
        return Err((6, 0));
    }
    let left = sheets[m..].to_vec();
    let over = |sheet: &Sheet| sheet.iter().position(|&number| number > MOST_RUNOFF);
    match left.iter().find_map(over) {
        Some(row) => Err((8, row as u64)),
        None => Ok(left),
    }
}

/// All years of a book with their sheets; none where it breaks its layout.
fn years_of(book: &[u8], stations: usize) -> Option<Vec<(u32, Vec<Sheet>)>> {
    let numbers: Vec<u32> = book.as_chunks().0.iter().map(|&n| u32::from_le_bytes(n)).collect();
    let count = *numbers.first()? as usize;
    let in_a_year = 12 * stations;
    // Every number has four bytes, and none stands beside the contents and the bodies.
    let all = 1 + 2 * count + count * in_a_year;
    if count > 20 || numbers.len() != all || book.len() != 4 * all {
        return None;
    }
    let (contents, bodies) = numbers[1..].split_at(2 * count);
    let mut latest = 1799;
    let mut offset = 4 * (1 + 2 * count);
    let mut years = Vec::new();
    for (entry, body) in contents.chunks(2).zip(bodies.chunks(in_a_year)) {
        if entry[0] <= latest || entry[0] > 2200 || entry[1] as usize != offset {
            return None;
        }
        years.push((entry[0], body.chunks(stations).map(<[u32]>::to_vec).collect()));
        latest = entry[0];
        offset += 4 * in_a_year;
    }
    Some(years)
}
