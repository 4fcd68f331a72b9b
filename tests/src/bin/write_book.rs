//! Writes a runoff book from a file of months, sheet after sheet from October of the first
//! year on. Arguments: the basin, the months, the book to be written, the years.

use river_tests::engine::book::{encode, WaterYear};
use river_tests::engine::check;
use river_tests::engine::records::{u32_at, MONTHS};
use std::{env, fs};

fn main() -> std::io::Result<()> {
    let mut words = env::args().skip(1);
    let mut name = |what: &str| words.next().unwrap_or_else(|| panic!("{what} is not named"));
    let (basin, months, book) = (name("a basin"), name("a file of months"), name("a book"));
    let (basin, months) = (fs::read(basin)?, fs::read(months)?);
    assert_eq!(check(&basin), (0, 0), "the basin is refused");
    let runoff: Vec<u32> =
        months.as_chunks().0.iter().map(|&number| u32::from_le_bytes(number)).collect();
    let sheets = runoff.chunks_exact(MONTHS * u32_at(&basin, 4) as usize);
    let years: Vec<WaterYear> = words
        .zip(sheets)
        .map(|(year, sheets)| WaterYear {
            year: year.parse().expect("a year"),
            runoff: sheets.to_vec(),
        })
        .collect();
    assert_eq!(years.iter().map(|year| 4 * year.runoff.len()).sum::<usize>(), months.len());
    fs::write(book, encode(&years))
}
