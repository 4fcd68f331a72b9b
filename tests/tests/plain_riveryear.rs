//! The plain program on files of its own directory: what it prints, byte for byte.

use river_tests::engine::book::{encode, WaterYear};
use river_tests::examples::{months_bytes, october, OCTOBER_RUNOFF};
use river_tests::generate::{largest, sheet, Rng};
use river_tests::retold::assert_listing;
use std::path::PathBuf;
use std::process::Command;
use std::{env, fs};

const HEADER: &str = "MONTH PERMIT RIVER STORE WHY AT\n";

/// Runs the program with these words in a directory of its own that holds the files given.
fn printed(name: &str, files: [Option<&[u8]>; 2], words: &[&str]) -> String {
    let folder: PathBuf =
        env::temp_dir().join(format!("plain_riveryear_{}_{name}", std::process::id()));
    fs::create_dir_all(&folder).unwrap();
    for (file, bytes) in ["basin.bin", "book.bin"].iter().zip(files) {
        if let Some(bytes) = bytes {
            fs::write(folder.join(file), bytes).unwrap();
        }
    }
    let program = env!("CARGO_BIN_EXE_plain_riveryear");
    let output = Command::new(program).current_dir(&folder).args(words).output().unwrap();
    fs::remove_dir_all(&folder).unwrap();
    assert!(output.status.success() && output.stderr.is_empty(), "{output:?}");
    String::from_utf8(output.stdout).unwrap()
}

fn october_book() -> Vec<u8> {
    encode(&[WaterYear { year: 1964, runoff: OCTOBER_RUNOFF.repeat(12) }])
}

#[test]
fn years_of_octobers_sheet() {
    let (basin, book) = (october().encode(), october_book());
    let words = ["basin.bin", "book.bin", "1964", "1964", "1965"];
    let text = printed("october", [Some(&basin), Some(&book)], &words);
    let sheets = months_bytes(&OCTOBER_RUNOFF).repeat(24);
    assert_eq!(assert_listing(&text, &basin, &sheets, &["refused 10 0"]), 24);
}

#[test]
fn files_that_are_not_there_count_as_empty() {
    let (basin, book) = (october().encode(), october_book());
    let words = ["basin.bin", "book.bin", "1964"];
    let refused = |refusal: &str| format!("{HEADER}refused {refusal}\n");
    assert_eq!(printed("no_word", [Some(&basin), Some(&book)], &[]), refused("1 0"));
    assert_eq!(printed("nothing", [None, None], &words), refused("1 0"));
    assert_eq!(printed("no_basin", [None, Some(&book)], &words), refused("1 0"));
    assert_eq!(printed("no_book", [Some(&basin), None], &words), refused("9 0"));
    assert_eq!(printed("no_book_named", [Some(&basin), None], &words[..1]), HEADER);
    assert_eq!(printed("no_year", [Some(&basin), None], &words[..2]), HEADER);
}

/// Twenty years of the largest basin: no book is longer.
#[test]
fn the_longest_book() {
    let (basin, rng) = (largest(), &mut Rng::new(1));
    let mut sheets = || (0..12).flat_map(|_| sheet(rng, &basin, 15)).collect();
    let years: Vec<_> = (0..20).map(|n| WaterYear { year: 1964 + n, runoff: sheets() }).collect();
    let (file, mut book) = (basin.encode(), encode(&years));
    assert_eq!(book.len(), 61_604);
    let words = ["basin.bin", "book.bin", "1983"];
    let text = printed("longest", [Some(&file), Some(&book)], &words);
    assert_eq!(assert_listing(&text, &file, &months_bytes(&years[19].runoff), &[]), 12);
    for more in [1, 100_000] {
        book.resize(61_604 + more, 0);
        let text = printed("too_long", [Some(&file), Some(&book)], &words);
        assert_eq!(text, format!("{HEADER}refused 9 0\n"));
    }
}
