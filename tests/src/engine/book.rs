//! The runoff book: its layout, and the look-up of a year (02, No. 4).
//!
//! A book holds some water years of one basin: their number, then for each the year and
//! the offset of its body, then the bodies. A body is twelve sheets from October on, each
//! with a number to a station, so that a book is judged with the basin that it is for.

use super::check::{judge, Refusal};
use super::network::Network;
use super::records::{u32_at, MONTHS};
use super::slip::{Slip, Telling};
use super::Answer;

pub const MOST_YEARS: usize = 20;
pub const FIRST_YEAR: u32 = 1800;
pub const LAST_YEAR: u32 = 2200;

/// Length of the number of years, and of what the contents say of each.
pub const COUNT_BYTES: usize = 4;
pub const ENTRY_BYTES: usize = 8;

/// A book that breaks its layout.
pub const BAD_BOOK: Refusal = Refusal { number: 9, place: 0 };
/// A year that the book does not list.
pub const NO_YEAR: Refusal = Refusal { number: 10, place: 0 };

/// Length of a sheet: a number to a station.
pub const fn sheet_bytes(stations: usize) -> usize {
    4 * stations
}

pub const fn body_bytes(stations: usize) -> usize {
    MONTHS * sheet_bytes(stations)
}

/// Where a body begins, the first at place 0. The place after the last body is where the
/// book ends.
pub const fn body_start(stations: usize, years: usize, place: usize) -> usize {
    COUNT_BYTES + ENTRY_BYTES * years + body_bytes(stations) * place
}

/// A book that keeps its layout.
pub struct Book<'a> {
    bytes: &'a [u8],
    entries: &'a [[u8; ENTRY_BYTES]],
    stations: usize,
}

impl<'a> Book<'a> {
    /// Judges the layout. The number of years is compared first, so that what is reckoned
    /// from it stays small.
    pub fn open<T: Telling>(
        telling: &T,
        stations: usize,
        bytes: &'a [u8],
    ) -> Result<Book<'a>, Refusal> {
        if bytes.len() < COUNT_BYTES {
            return Err(BAD_BOOK);
        }
        let mut years = u32_at(bytes, 0) as usize;
        if telling.slips(Slip::YearCountLowByteOnly) {
            years &= 255;
        }
        let most = MOST_YEARS - telling.slips(Slip::YearCountTight) as usize;
        if years > most || (years == 0 && telling.slips(Slip::BookOfNoYearRefused)) {
            return Err(BAD_BOOK);
        }
        let end = body_start(stations, years, years);
        let goes_on = bytes.len() > end && !telling.slips(Slip::BookEndNotTested);
        if bytes.len() < end || goes_on {
            return Err(BAD_BOOK);
        }
        let entries = bytes[COUNT_BYTES..body_start(stations, years, 0)].as_chunks().0;
        let book = Book { bytes, entries, stations };
        if (0..years).any(|place| book.entry_at_fault(telling, place)) {
            return Err(BAD_BOOK);
        }
        Ok(book)
    }

    fn year(&self, place: usize) -> u32 {
        u32_at(&self.entries[place], 0)
    }

    fn start(&self, place: usize) -> usize {
        body_start(self.stations, self.entries.len(), place)
    }

    /// Years of four centuries that rise, and bodies that lie end to end.
    fn entry_at_fault<T: Telling>(&self, telling: &T, place: usize) -> bool {
        let year = self.year(place);
        let last = LAST_YEAR - telling.slips(Slip::LastYearTight) as u32;
        let rises = place == 0
            || self.year(place - 1) < year
            || (self.year(place - 1) == year && telling.slips(Slip::EqualYearsAccepted));
        let packed = u32_at(&self.entries[place], 4) as usize == self.start(place)
            || telling.slips(Slip::BookOffsetNotTested);
        !(FIRST_YEAR..=last).contains(&year) || !rises || !packed
    }

    /// The body of a year, as a part of the book.
    fn body<T: Telling>(&self, telling: &T, year: u32) -> Result<&'a [u8], Refusal> {
        let years = self.entries.len();
        let mut place = (0..years).find(|&place| self.year(place) == year).ok_or(NO_YEAR)?;
        if telling.slips(Slip::BodyOfNextYear) {
            place = (place + 1).min(years - 1);
        }
        let length = body_bytes(self.stations);
        let mut start = self.start(place);
        if telling.slips(Slip::BodyOneByteLate) {
            start = (start + 1).min(self.bytes.len() - length);
        }
        Ok(&self.bytes[start..start + length])
    }
}

/// The body of a year in a book of a basin with so many stations: refusals 9 and 10.
pub fn find_body<'a, T: Telling>(
    telling: &T,
    stations: usize,
    book: &'a [u8],
    year: u32,
) -> Result<&'a [u8], Refusal> {
    if telling.slips(Slip::YearBeforeBook) && !names(book, year) {
        return Err(NO_YEAR);
    }
    Book::open(telling, stations, book)?.body(telling, year)
}

/// Whether a year stands in the contents, as far as there are any; only for a slip.
fn names(book: &[u8], year: u32) -> bool {
    let Some((count, rest)) = book.split_at_checked(COUNT_BYTES) else { return false };
    let entries = rest.as_chunks::<ENTRY_BYTES>().0.iter().take(u32_at(count, 0) as usize);
    entries.into_iter().any(|entry| u32_at(entry, 0) == year)
}

/// The look-up, on the bytes of both files.
pub fn year_body<'a, T: Telling>(
    telling: &T,
    file: &[u8],
    book: &'a [u8],
    year: u32,
) -> Result<&'a [u8], Refusal> {
    let mut network = Network::room();
    let basin = judge(telling, file, &mut network)?;
    find_body(telling, basin.sections.stations.len(), book, year)
}

/// Number and place of a look-up; 0, 0 for a year that is found.
pub fn find_year<T: Telling>(telling: &T, file: &[u8], book: &[u8], year: u32) -> Answer {
    match year_body(telling, file, book, year) {
        Ok(_) => (0, 0),
        Err(refusal) => refusal.answer(),
    }
}

/// A year in decoded form, for the generator, the damages and the tests: its sheets, one
/// behind the other.
#[derive(Clone, Debug, PartialEq, Eq)]
pub struct WaterYear {
    pub year: u32,
    pub runoff: Vec<u32>,
}

/// The book of these years, packed as it has to be, whatever the years say.
pub fn encode(years: &[WaterYear]) -> Vec<u8> {
    let mut book = (years.len() as u32).to_le_bytes().to_vec();
    let mut offset = COUNT_BYTES + ENTRY_BYTES * years.len();
    for water_year in years {
        book.extend(water_year.year.to_le_bytes());
        book.extend((offset as u32).to_le_bytes());
        offset += 4 * water_year.runoff.len();
    }
    book.extend(years.iter().flat_map(|year| &year.runoff).flat_map(|number| number.to_le_bytes()));
    book
}
