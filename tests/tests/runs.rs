//! The files of program `riverrun` are the named runs, and its expected listing is
//! what the rules say of them: by the tally month for month, with the refusals
//! written down by hand, and as the plain engine lists them.

use river_tests::retold::assert_listing;
use river_tests::runs::{runs, Run};
use std::path::{Path, PathBuf};
use std::{collections::BTreeSet, fs};

const HEADER: &str = "MONTH PERMIT RIVER STORE WHY AT\n";

fn all() -> Vec<Run> {
    let samples = Path::new(env!("CARGO_MANIFEST_DIR")).join("../samples");
    let read = |name: &str| fs::read(samples.join(name)).unwrap();
    runs([read("provo.basin.bin"), read("provo.months.bin")])
}

fn folder() -> PathBuf {
    Path::new(env!("CARGO_MANIFEST_DIR")).join("../crates/riverrun")
}

/// The listings that the program is to print, each from its header on.
fn expected() -> Vec<String> {
    let text = fs::read_to_string(folder().join("stdout")).unwrap();
    let listings = text.split(HEADER).skip(1);
    listings.map(|lines| format!("{HEADER}{lines}")).collect()
}

#[test]
fn files_are_the_runs() {
    let names: String = all().iter().flat_map(|run| run.files()).map(|name| name + "\n").collect();
    assert_eq!(fs::read_to_string(folder().join("args")).unwrap(), names);
    for run in all() {
        for (name, bytes) in run.files().iter().zip([&run.basin, &run.months]) {
            let file = fs::read(folder().join("data").join(name)).ok();
            assert_eq!(file.as_ref(), bytes.as_ref(), "{name}");
        }
    }
}

#[test]
fn expected_listings_are_what_the_rules_say() {
    assert_eq!(expected().len(), all().len());
    let mut months = 0;
    for (run, text) in all().iter().zip(expected()) {
        let [basin, sheets] = run.bytes();
        let ending: Vec<&str> = run.refusal.into_iter().collect();
        months += assert_listing(&text, basin, sheets, &ending);
        // The stations named are those that the plain engine names.
        assert_eq!(text, run.listing(), "{}", run.name);
    }
    println!("{} runs, {months} months", all().len());
}

#[test]
fn october_is_as_the_rules_print_it() {
    let text = "MONTH PERMIT RIVER STORE WHY AT\n\
        0 11 1500 0 0 0\n0 12 1201 0 0 0\n0 13 701 0 2 300\n0 14 0 600 0 0\n0 15 0 0 1 100\n\
        0 end 0 75 1026 403\n";
    assert_eq!(expected()[0], text);
}

/// The season of 02, No. 8, by hand. In October the first right has its 1500, whoever comes
/// after it. In November it finds 300 of runoff, and beside them the 242 that right 12 returns a
/// month late; without younger rights the 300 alone.
#[test]
fn an_elder_right_with_and_without_younger_ones() {
    let with_younger = "MONTH PERMIT RIVER STORE WHY AT\n\
        0 11 1500 0 0 0\n0 12 1201 0 0 0\n0 13 701 0 2 300\n0 14 0 600 0 0\n0 15 0 0 1 100\n\
        0 end 0 75 1026 403\n\
        1 11 542 0 2 300\n1 12 0 0 1 300\n1 13 0 0 1 200\n1 14 0 600 0 0\n1 15 0 0 1 100\n\
        1 end 0 0 426 161\n";
    // 3000 reach row 2 in October; the lake loses 5 over the 15 acres of its 1000.
    let alone = "MONTH PERMIT RIVER STORE WHY AT\n\
        0 11 1500 0 0 0\n0 end 1500 75 925 0\n\
        1 11 300 0 2 300\n1 end 0 0 925 0\n";
    let text = expected();
    let place = |name| all().iter().position(|run| run.name == name).unwrap();
    assert_eq!(text[place("elder_with_younger")], with_younger);
    assert_eq!(text[place("elder_alone")], alone);
}

#[test]
fn every_reason_and_the_refusals_of_a_run_are_there() {
    let text = expected().concat();
    let reasons: BTreeSet<_> = text
        .lines()
        .filter(|line| !line.contains("end"))
        .filter_map(|line| line.split(' ').nth(4))
        .collect();
    assert_eq!(reasons, BTreeSet::from(["0", "1", "2", "3", "WHY"]));
    for refusal in ["refused 1 0", "refused 5 3", "refused 6 0", "refused 8 1"] {
        assert!(text.lines().any(|line| line == refusal), "{refusal}");
    }
}
