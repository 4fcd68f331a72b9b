//! The job of program `riverrun` in plain Rust, to time it against: reads
//! `basin.bin` and `months.bin` of the current directory, prints the listing.

use river_tests::listing::run;
use std::fs::File;
use std::io::{self, BufReader, Read};

/// 32 bytes of contents, 64 stations, 8 reservoirs, 16 patterns, 256 rights.
const LONGEST: u64 = 32 + 64 * 8 + 8 * 68 + 16 * 12 + 256 * 76;

fn main() -> io::Result<()> {
    let basin = read_basin()?;
    let out = io::stdout().lock();
    // Without such a file there is no month to list.
    match File::open("months.bin") {
        Ok(months) => run(&basin, BufReader::new(months), out),
        Err(_) => run(&basin, io::empty(), out),
    }
}

/// The basin file, or as much of it as shows that it is too long: one byte more
/// than any file can have is refused like all the rest would be.
fn read_basin() -> io::Result<Vec<u8>> {
    let mut bytes = Vec::new();
    if let Ok(file) = File::open("basin.bin") {
        file.take(LONGEST + 1).read_to_end(&mut bytes)?;
    }
    Ok(bytes)
}
