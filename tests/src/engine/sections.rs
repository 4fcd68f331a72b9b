//! The table of contents and the bodies that it tells of: refusal 1.

use super::check::Refusal;
use super::records::*;
use super::report;
use super::slip::{Slip, Telling};

/// Too short for a table of contents, a count out of range, or bodies with a gap or
/// bytes behind them (01, Numbers for what is turned down).
const NOT_PACKED: Refusal = Refusal { number: 1, place: 0 };

/// The four bodies, each a part of the bytes that the caller lent.
pub struct Sections<'a> {
    pub stations: &'a [[u8; STATION_BYTES]],
    pub reservoirs: &'a [[u8; RESERVOIR_BYTES]],
    pub patterns: &'a [[u8; PATTERN_BYTES]],
    pub rights: &'a [[u8; RIGHT_BYTES]],
}

impl Sections<'_> {
    /// Shortest report that holds a month of this basin.
    pub fn report_length(&self) -> usize {
        report::length(self.rights.len(), self.stations.len(), self.reservoirs.len())
    }
}

/// Finds the bodies by the table of contents. They have to lie one behind the other,
/// the first behind the table, the last at the end of the file (01, The basin file).
pub fn find_sections<'a, T: Telling>(telling: &T, file: &'a [u8]) -> Result<Sections<'a>, Refusal> {
    if file.len() < CONTENTS_BYTES {
        return Err(NOT_PACKED);
    }
    let station_limit = MOST_STATIONS - telling.slips(Slip::StationCountTight) as usize;
    let right_limit = MOST_RIGHTS - telling.slips(Slip::RightCountTight) as usize;
    let mut start = CONTENTS_BYTES;
    let sections = Sections {
        stations: find_section(telling, file, 0, &mut start, 1, station_limit)?,
        reservoirs: find_section(telling, file, 1, &mut start, 0, MOST_RESERVOIRS)?,
        patterns: find_section(telling, file, 2, &mut start, 0, MOST_PATTERNS)?,
        rights: find_section(telling, file, 3, &mut start, 0, right_limit)?,
    };
    if start != file.len() && !telling.slips(Slip::EndNotTested) {
        return Err(NOT_PACKED);
    }
    Ok(sections)
}

/// One body. Its offset has to be `start`, where the body before it ended; that of an
/// empty body too.
#[inline(always)]
fn find_section<'a, T: Telling, const BYTES: usize>(
    telling: &T,
    file: &'a [u8],
    entry: usize,
    start: &mut usize,
    fewest: usize,
    most: usize,
) -> Result<&'a [[u8; BYTES]], Refusal> {
    let offset = u32_at(file, 8 * entry) as usize;
    let mut count = u32_at(file, 8 * entry + 4) as usize;
    if telling.slips(Slip::CountLowByteOnly) {
        count &= 255;
    }
    if count < fewest || count > most {
        return Err(NOT_PACKED);
    }
    if offset != *start && !telling.slips(Slip::OffsetNotTested) {
        return Err(NOT_PACKED);
    }
    let end = *start + count * BYTES;
    let body = file.get(*start..end).ok_or(NOT_PACKED)?;
    *start = end;
    Ok(body.as_chunks().0)
}
