//! What program `riveryear` is put to under the gate, in one run: years of the Provo
//! River's book, not in their order, one of them twice, and then one that is not listed.

use crate::listing::listing_of_years;

pub const BASIN: &str = "provo.basin.bin";
pub const BOOK: &str = "provo.book.bin";
pub const YEARS: &[&str] = &["1967", "1964", "1967", "1968"];
/// The refusal that ends it, as the rules give it.
pub const REFUSAL: &str = "refused 10 0";

/// The words that the program is run with, one to a line.
pub fn words() -> String {
    [BASIN, BOOK].iter().chain(YEARS).map(|word| format!("{word}\n")).collect()
}

/// What the plain engine lists; the sample files are read by the caller.
pub fn listing(basin: &[u8], book: &[u8]) -> String {
    listing_of_years(basin, book, YEARS)
}
