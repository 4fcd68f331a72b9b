//! The job of program `riveryear` in plain Rust, to compare it with: lists years of a
//! book. Words: the basin, the book, the years.

use river_tests::engine::book::{body_start, MOST_YEARS};
use river_tests::engine::records::MOST_STATIONS;
use river_tests::listing::run_years;
use std::env;
use std::ffi::OsString;
use std::fs::File;
use std::io::{self, Read};
use std::os::unix::ffi::OsStringExt;

/// 32 bytes of contents, 64 stations, 8 reservoirs, 16 patterns, 256 rights.
const LONGEST_BASIN: usize = 32 + 64 * 8 + 8 * 68 + 16 * 12 + 256 * 76;
const LONGEST_BOOK: usize = body_start(MOST_STATIONS, MOST_YEARS, MOST_YEARS);

fn main() -> io::Result<()> {
    let mut words = env::args_os().skip(1);
    let (basin, book) = (words.next(), words.next());
    let years = words.map(OsString::into_vec);
    run_years(&read(basin, LONGEST_BASIN), || read(book, LONGEST_BOOK), years, io::stdout().lock())
}

/// The bytes of a file, or as many of them as show that it is too long. A file that is
/// not named, not to be opened or not to be read counts as empty.
fn read(name: Option<OsString>, longest: usize) -> Vec<u8> {
    let mut bytes = Vec::new();
    let file = name.and_then(|name| File::open(name).ok());
    match file.map(|file| file.take(longest as u64 + 1).read_to_end(&mut bytes)) {
        Some(Ok(_)) => bytes,
        _ => Vec::new(),
    }
}
