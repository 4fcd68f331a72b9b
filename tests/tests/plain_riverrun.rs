//! The plain program on files of its own directory: what it prints, byte for byte.

use river_tests::examples::{months_bytes, october, OCTOBER_RUNOFF};
use river_tests::generate::{largest, sheet, Rng};
use river_tests::retold::assert_listing;
use std::path::PathBuf;
use std::process::Command;
use std::{env, fs};

const HEADER: &str = "MONTH PERMIT RIVER STORE WHY AT\n";

/// Runs the program in a directory of its own that holds the files given.
fn printed(name: &str, basin: Option<&[u8]>, months: Option<&[u8]>) -> String {
    let folder: PathBuf =
        env::temp_dir().join(format!("plain_riverrun_{}_{name}", std::process::id()));
    fs::create_dir_all(&folder).unwrap();
    for (file, bytes) in [("basin.bin", basin), ("months.bin", months)] {
        if let Some(bytes) = bytes {
            fs::write(folder.join(file), bytes).unwrap();
        }
    }
    let program = env!("CARGO_BIN_EXE_plain_riverrun");
    let output = Command::new(program).current_dir(&folder).output().unwrap();
    fs::remove_dir_all(&folder).unwrap();
    assert!(output.status.success() && output.stderr.is_empty(), "{output:?}");
    String::from_utf8(output.stdout).unwrap()
}

#[test]
fn october_as_printed_in_the_rules() {
    let end = "\
0 11 1500 0 0 0
0 12 1201 0 0 0
0 13 701 0 2 300
0 14 0 600 0 0
0 15 0 0 1 100
0 end 0 75 1026 403
";
    let (basin, months) = (october().encode(), months_bytes(&OCTOBER_RUNOFF));
    assert_eq!(printed("october", Some(&basin), Some(&months)), format!("{HEADER}{end}"));
    let part = [&months[..], &[0; 11]].concat();
    let refused = format!("{HEADER}{end}refused 6 0\n");
    assert_eq!(printed("part", Some(&basin), Some(&part)), refused);
}

#[test]
fn files_that_are_not_there_count_as_empty() {
    let basin = october().encode();
    assert_eq!(printed("nothing", None, None), format!("{HEADER}refused 1 0\n"));
    assert_eq!(printed("no_months", Some(&basin), None), HEADER);
    assert_eq!(printed("empty_months", Some(&basin), Some(&[])), HEADER);
}

#[test]
fn a_basin_longer_than_any_is_refused() {
    let mut basin = largest().encode();
    assert_eq!(basin.len(), 20_736);
    assert_eq!(printed("largest", Some(&basin), None), HEADER);
    for more in [1, 100_000] {
        basin.resize(20_736 + more, 0);
        assert_eq!(printed("too_long", Some(&basin), None), format!("{HEADER}refused 1 0\n"));
    }
}

/// More months than the reader or the writer holds at once.
#[test]
fn years_of_the_largest_basin() {
    let (basin, rng) = (largest(), &mut Rng::new(1));
    let runoff: Vec<u32> = (0..60).flat_map(|_| sheet(rng, &basin, 15)).collect();
    let (basin, months) = (basin.encode(), months_bytes(&runoff));
    let text = printed("years", Some(&basin), Some(&months));
    assert_eq!(text.lines().count(), 1 + 60 * (256 + 1));
    assert_eq!(assert_listing(&text, &basin, &months, &[]), 60);
}
