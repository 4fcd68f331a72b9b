//! Short months as `rivercalls` and the example in C print them.

use river_tests::calls::{by_each, Calls};
use river_tests::engine::board::{BOARD, NEXT_MONTH, SHORT};
use river_tests::engine::report::LONGEST;
use river_tests::engine::tally::{PastMonth, Reason, Tally};
use river_tests::engine::Answer;
use river_tests::examples::{october, OCTOBER_RUNOFF};
use river_tests::run::Run;
use std::fs;
use std::path::Path;

/// The lines of `rivercalls`, between its years and its patterns.
#[test]
fn the_lines_of_rivercalls() {
    let folder = Path::new(env!("CARGO_MANIFEST_DIR")).join("../crates/rivercalls");
    let text = fs::read_to_string(folder.join("stdout")).unwrap();
    let book = fs::read(folder.join("data/october.book.bin")).unwrap();
    by_each(|calls| {
        let lines = refused(calls) + &counted(calls, &book);
        assert!(text.contains(&format!("\n{lines}month by 50, 30, 20:")), "{lines}");
        let lengths = "fresh, board of 1225: 6 0\nmonth, board of 1225: 6 0\n";
        assert!(text.contains(lengths), "{lengths}");
    });
}

/// Boards and a file that are turned down.
fn refused(calls: &Calls) -> String {
    let file = october().encode();
    let mut fresh = vec![7; BOARD];
    assert_eq!((calls.fresh)(&file, &mut fresh), (0, 0));
    let mut thirteenth = vec![0; BOARD];
    thirteenth[NEXT_MONTH] = 12;
    let (mut above, mut of_none) = (fresh.clone(), fresh.clone());
    above[SHORT] = 4096;
    of_none[SHORT + 5] = 1;
    let mut lines = String::new();
    for (what, file, board) in [
        ("no file", &[][..], &fresh[..]),
        ("board of 1225", &file, &[0; 1225]),
        ("board of a thirteenth month", &file, &thirteenth),
        ("a bit above September's", &file, &above),
        ("a word of right 5", &file, &of_none),
    ] {
        let [number, place, months] = (calls.short_months)(file, board, 0);
        lines += &format!("short months, {what}: {number} {place} {months}\n");
        if board == above {
            let mut board = above.clone();
            let (number, place) = (calls.month)(file, &OCTOBER_RUNOFF, &mut board, &mut [0; 28]);
            lines += &format!("month, {what}: {number} {place}\n");
        }
    }
    lines
}

/// Twelve months and an October. What the calls tell of each is the tally's.
fn counted(calls: &'static Calls, book: &[u8]) -> String {
    let mut run = Run::of(calls, &october());
    let tell = |run: &Run, what: &str, (number, place): Answer, rights: &[usize]| {
        let mut lines = format!("{what}: {number} {place}\n");
        for &right in rights {
            let [number, place, months] = run.short_months(right);
            lines += &format!("short months of right {right}: {number} {place} {months}\n");
        }
        lines
    };
    let short = run.month(&OCTOBER_RUNOFF);
    let all = [0, 1, 2, 3, 4, 5, usize::MAX];
    let mut lines = tell(&run, "October of 1889", (0, short), &all);
    let answer = run.year(book, 1889);
    lines += &tell(&run, "run of 1889, from November", answer, &all[..5]);
    let short = run.month(&OCTOBER_RUNOFF);
    lines + &tell(&run, "October of 1890", (0, short), &all[..5])
}

const PROVO: &[u8] = include_bytes!("../../../samples/provo.basin.bin");
const PROVO_BOOK: &[u8] = include_bytes!("../../../samples/provo.book.bin");

/// What `examples/short_months.c` prints of 1964 on the Provo River: for every right the months
/// in which the tally's grant was short, and their number.
#[test]
fn the_example_in_c_prints_what_the_tally_has() {
    let mut tally = Tally::new(PROVO);
    assert_eq!(tally.run_year(PROVO_BOOK, 1964, 12 * LONGEST), (0, 12));
    let mut text = String::new();
    for right in 0..tally.taken.len() {
        let mark = |past: &PastMonth| match past.grants[right].reason {
            Reason::NotShort => '.',
            _ => 'x',
        };
        let months: String = tally.months.iter().map(mark).collect();
        text += &format!("right {right}: {months} {} short months\n", months.matches('x').count());
    }
    assert_eq!(include_str!("../../../examples/short_months.expected"), text);
}
