//! The files of program `riveryear` are the samples, and its expected listing is what the
//! rules say of them: by the tally month for month, as the plain engine lists it. Words
//! that name years or none, and what is refused.

use river_tests::damage::broken_books;
use river_tests::engine::book::{encode, WaterYear};
use river_tests::engine::records::MOST_RUNOFF;
use river_tests::engine::report::LONGEST;
use river_tests::engine::tally::Tally;
use river_tests::examples::{months_bytes, october, OCTOBER_RUNOFF};
use river_tests::generate::{any_river, Rng};
use river_tests::listing::{listing, listing_of_years};
use river_tests::retold::assert_listing;
use river_tests::years::{self, words, BASIN, BOOK, REFUSAL};
use std::fs;
use std::path::Path;

const PROVO: &[u8] = include_bytes!("../../samples/provo.basin.bin");
const PROVO_BOOK: &[u8] = include_bytes!("../../samples/provo.book.bin");
const PROVO_MONTHS: &[u8] = include_bytes!("../../samples/provo.months.bin");

const HEADER: &str = "MONTH PERMIT RIVER STORE WHY AT\n";

/// The two years of the sample, sheet after sheet.
fn of_1964_and_1967() -> (&'static [u8], &'static [u8]) {
    PROVO_MONTHS.split_at(PROVO_MONTHS.len() / 2)
}

#[test]
fn the_sample_book_is_the_sample_months() {
    let (of_1964, of_1967) = of_1964_and_1967();
    assert_eq!(PROVO_BOOK[20..], [of_1964, of_1967].concat());
    // Two years; 1964 after the contents, 1967 after 48 bytes for each of 18 stations.
    assert_eq!(PROVO_BOOK[..20], months_bytes(&[2, 1964, 20, 1967, 20 + 48 * 18]));
}

#[test]
fn files_and_expected_listing_are_the_years() {
    let folder = Path::new(env!("CARGO_MANIFEST_DIR")).join("../crates/riveryear");
    assert_eq!(fs::read(folder.join("data").join(BASIN)).unwrap(), PROVO);
    assert_eq!(fs::read(folder.join("data").join(BOOK)).unwrap(), PROVO_BOOK);
    assert_eq!(fs::read_to_string(folder.join("args")).unwrap(), words());
    let text = fs::read_to_string(folder.join("stdout")).unwrap();
    let (of_1964, of_1967) = of_1964_and_1967();
    let sheets = [of_1967, of_1964, of_1967].concat();
    assert_eq!(assert_listing(&text, PROVO, &sheets, &[REFUSAL]), 36);
    assert_eq!(text, years::listing(PROVO, PROVO_BOOK));
}

/// The book that `rivercalls` looks years up in: 1889, the worked October's sheet twelve times,
/// and 1890, the same but for a March that is over the limit at the second and third rows.
/// From November on, after the worked October, the first has eleven months.
#[test]
fn the_book_of_rivercalls_and_what_it_prints_of_it() {
    let folder = Path::new(env!("CARGO_MANIFEST_DIR")).join("../crates/rivercalls");
    let sheets = |march: [u32; 3]| {
        let sheet = |month| if month == 5 { march } else { OCTOBER_RUNOFF };
        (0..12).flat_map(sheet).collect()
    };
    let good = WaterYear { year: 1889, runoff: sheets(OCTOBER_RUNOFF) };
    let bad = WaterYear { year: 1890, runoff: sheets([2000, MOST_RUNOFF + 1, u32::MAX]) };
    let book = encode(&[good, bad]);
    assert_eq!(fs::read(folder.join("data/october.book.bin")).unwrap(), book);

    let mut tally = Tally::new(&october().encode());
    assert_eq!(tally.call(&OCTOBER_RUNOFF, 28), (0, 2));
    let (reports, text) = (12 * 28, fs::read_to_string(folder.join("stdout")).unwrap());
    for (line, year, list) in [
        ("run of 1888, list of 335", 1888, reports - 1),
        ("run of 1890, list of 335", 1890, reports - 1),
        ("run of 1890, March over the limit", 1890, reports),
        ("run of 1889, from November", 1889, reports),
    ] {
        let (number, place) = tally.run_year(&book, year, list);
        assert!(text.contains(&format!("{line}: {number} {place}\n")), "{line}");
    }
    let pending: i128 = tally.pending_returns().iter().flatten().sum();
    let stock = format!("from November: 0 11\nstock 0 0 {} {pending}\n", tally.storages[0]);
    assert!(text.contains(&stock));
}

/// What `examples/year.c` prints of 1964 is what the tally has: the flow at the last row in
/// each month, and the lake's storage after September.
#[test]
fn the_example_in_c_prints_what_the_tally_has() {
    let mut tally = Tally::new(PROVO);
    assert_eq!(tally.run_year(PROVO_BOOK, 1964, 12 * LONGEST), (0, 12));
    let mut text = String::new();
    for (month, past) in tally.months.iter().enumerate() {
        text += &format!("month {month}: outflow {}\n", past.flow.last().unwrap());
    }
    text += &format!("reservoir 0 holds {}\n", tally.storages[0]);
    assert_eq!(include_str!("../../examples/year.expected"), text);
}

/// October's runoff in every month.
fn october_years(years: &[u32]) -> Vec<WaterYear> {
    years.iter().map(|&year| WaterYear { year, runoff: OCTOBER_RUNOFF.repeat(12) }).collect()
}

/// The lines of so many months of October's sheet, without the header.
fn october_months(months: usize) -> String {
    let sheets = months_bytes(&OCTOBER_RUNOFF).repeat(months);
    listing(&october().encode(), &sheets).strip_prefix(HEADER).unwrap().to_string()
}

#[test]
fn a_word_names_a_year_or_none() {
    let (basin, book) = (october().encode(), encode(&october_years(&[1964, 2000])));
    let lists = |words: &[&str]| listing_of_years(&basin, &book, words);
    let one = format!("{HEADER}{}", october_months(12));
    for named in ["1964", "2000", "01964", "000000000000000000000001964"] {
        assert_eq!(lists(&[named]), one, "{named}");
    }
    let unlisted =
        ["0", "1799", "1965", "2201", "4294967295", "4294969260", "18446744073709553580"];
    let no_number =
        ["", " ", "19x64", "+1964", "-1964", " 1964", "1964 ", "1964.0", "0x7ac", "١٩٦٤"];
    for none in unlisted.iter().chain(&no_number) {
        assert_eq!(lists(&[none]), format!("{HEADER}refused 10 0\n"), "{none}");
        assert_eq!(lists(&["2000", none, "1964"]), format!("{one}refused 10 0\n"), "{none}");
    }
    assert_eq!(lists(&[]), HEADER);
}

#[test]
fn months_are_counted_over_all_years() {
    let (basin, book) = (october().encode(), encode(&october_years(&[1964, 2000])));
    let text = listing_of_years(&basin, &book, &["2000", "1964", "1964"]);
    assert_eq!(text, format!("{HEADER}{}", october_months(36)));
}

#[test]
fn nothing_of_a_refused_year_is_printed() {
    let basin = october().encode();
    let mut years = october_years(&[1964, 1965]);
    years[1].runoff[3 * 7 + 2] = MOST_RUNOFF + 1;
    let book = encode(&years);
    let text = listing_of_years(&basin, &book, &["1964", "1965", "1964"]);
    assert_eq!(text, format!("{HEADER}{}refused 8 2\n", october_months(12)));
}

#[test]
fn a_book_that_breaks_its_layout_is_told_before_a_year() {
    let basin = october().encode();
    for (name, book) in broken_books(&october_years(&[1964, 2000]), 3) {
        for word in ["1964", "1965", "x"] {
            let text = listing_of_years(&basin, &book, &[word]);
            assert_eq!(text, format!("{HEADER}refused 9 0\n"), "{name}");
        }
        assert_eq!(listing_of_years(&basin, &book, &[]), HEADER, "{name}");
        assert_eq!(listing_of_years(&[], &book, &["1964"]), format!("{HEADER}refused 1 0\n"));
        assert_eq!(listing_of_years(&[], &book, &[]), format!("{HEADER}refused 1 0\n"));
    }
}

#[test]
fn random_rivers() {
    let (mut months, mut lines) = (0, 0);
    for seed in 0..100 {
        let rng = &mut Rng::new(seed);
        let river = any_river(rng);
        let years = river.book(rng, 3);
        let book = encode(&years);
        let asked: Vec<_> = (0..3).map(|_| rng.pick(&years)).collect();
        let sheets: Vec<u32> = asked.iter().flat_map(|year| year.runoff.clone()).collect();
        let words: Vec<String> = asked.iter().map(|year| year.year.to_string()).collect();
        let words: Vec<&str> = words.iter().map(String::as_str).collect();
        let text = listing_of_years(&river.file, &book, &words);
        months += assert_listing(&text, &river.file, &months_bytes(&sheets), &[]);
        lines += text.lines().count();
    }
    assert_eq!(months, 100 * 36);
    println!("{months} months of 300 years from books, {lines} lines of listings");
}
