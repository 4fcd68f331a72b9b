//! The files of program `riverplan` are the sample's second year and a dry spring made of it,
//! and what it is to print is what the rules say: the months by the tally, the answers of the
//! store by hand.

use river_tests::engine::tally::Tally;
use river_tests::examples::months_bytes;
use river_tests::plan::Plan;
use river_tests::retold::assert_listing;
use std::fs;
use std::path::Path;

const PROVO: &[u8] = include_bytes!("../../samples/provo.basin.bin");
const PROVO_MONTHS: &[u8] = include_bytes!("../../samples/provo.months.bin");

/// The bytes of a sheet of 18 stations, and of the five before March.
const SHEET: usize = 4 * 18;
const WINTER: usize = 5 * SHEET;

const TRIED: &str = "as if nothing had been tried: ";

/// What is printed after the trial, with the rules' answers; at a stock line the sums of
/// September, of the board before March, and of March.
const AFTERWARDS: &str = "\
a store of 39263 bytes, save, recall, drop: 6 0 6 0 6 0
a name of seven bytes, save, recall, drop: 6 0 6 0 6 0
a name of zeros, save, recall, drop: 11 0 11 0 11 0
save, board of 1225: 6 0
stock 0 0 SEPTEMBER
save APRIL: 0 0
save MAY: 0 0
JUNE, a fifth, save, recall, drop: 12 0 11 0 11 0
drop DRY: 0 0
recall DRY: 11 0
save JUNE: 0 0
recall MARCH, its name twice: 0 0
stock 0 0 FEBRUARY
save MAY, a board of a thirteenth month: 0 0
recall MAY: 0 0
month: 7 0
recall MARCH: 0 0
month: 0 SHORT
stock 0 0 MARCH
";

fn plan() -> Plan {
    Plan::of_sample(PROVO, PROVO_MONTHS)
}

fn stored(name: &str) -> Vec<u8> {
    fs::read(Path::new(env!("CARGO_MANIFEST_DIR")).join("../crates/riverplan").join(name)).unwrap()
}

fn printed() -> String {
    String::from_utf8(stored("stdout")).unwrap()
}

#[test]
fn files_and_expected_lines_are_the_plan() {
    for (name, bytes) in plan().files() {
        assert_eq!(stored(&format!("data/{name}")), bytes, "{name}");
    }
    assert_eq!(printed(), plan().printed());
}

#[test]
fn a_dry_spring_is_a_tenth() {
    let Plan { year, dry, .. } = plan();
    assert_eq!(year, PROVO_MONTHS[12 * SHEET..]);
    assert_eq!((year.len(), dry.len()), (12 * SHEET, 7 * SHEET));
    let number = |bytes: &[u8], at: usize| u32::from_le_bytes(*bytes[at..].first_chunk().unwrap());
    let tenths: Vec<u32> =
        (WINTER..year.len()).step_by(4).map(|at| number(&year, at) / 10).collect();
    assert_eq!(dry, months_bytes(&tenths));
}

/// The lines before each answer are those of a year, by the tally: of the dry one without its
/// end, and of 1967 whose spring follows the recall.
#[test]
fn the_months_are_the_tallys() {
    let Plan { year, dry, .. } = plan();
    let text = printed();
    let (winter, rest) = text.split_once("save MARCH: 0 0\n").unwrap();
    let (dry_spring, rest) = rest.split_once("save DRY: 0 0\nrecall MARCH: 0 0\n").unwrap();
    let (spring, rest) = rest.split_once(TRIED).unwrap();
    let dry_year = [&year[..WINTER], &dry].concat();
    assert_eq!(assert_listing(&format!("{winter}{dry_spring}"), PROVO, &dry_year, &[]), 12);
    assert_eq!(assert_listing(&format!("{winter}{spring}"), PROVO, &year, &[]), 12);
    assert_ne!(dry_spring, spring);
    assert!(rest.starts_with(&format!("{} bytes, the same\n", spring.len())));
}

/// Sums of storage and of what is due, as a stock line has them, after so many months of 1967,
/// and how many rights were short in the last of them.
fn after(months: usize) -> (String, u64) {
    let mut tally = Tally::new(PROVO);
    let mut short = 0;
    for sheet in plan().year.chunks(SHEET).take(months) {
        let runoff: Vec<u32> = sheet.as_chunks().0.iter().map(|&n| u32::from_le_bytes(n)).collect();
        let (number, rights) = tally.call(&runoff, 5000);
        assert_eq!(number, 0);
        short = rights;
    }
    let stored: i128 = tally.storages.iter().sum();
    let due: i128 = tally.pending_returns().iter().flatten().sum();
    (format!("{stored} {due}"), short)
}

#[test]
fn the_answers_are_the_rules() {
    let text = printed();
    let (_, rest) = text.split_once(TRIED).unwrap();
    let (_, answers) = rest.split_once('\n').unwrap();
    let [february, march, september] = [5, 6, 12].map(after);
    assert_ne!(february.0, september.0);
    let expected = AFTERWARDS
        .replace("0 0 SEPTEMBER", &format!("0 0 {}", september.0))
        .replace("0 0 FEBRUARY", &format!("0 0 {}", february.0))
        .replace("0 0 MARCH", &format!("0 0 {}", march.0))
        .replace("SHORT", &march.1.to_string());
    assert_eq!(answers, expected);
}
