//! The months in which a right was short, worked out by hand and asked of every engine (02,
//! No. 6): the months here, what is turned down in `refusals`, what programs print of them in
//! `printed`.

mod printed;
mod refusals;

use river_tests::calls::{by_each, Calls};
use river_tests::engine::board::*;
use river_tests::engine::book::{encode, WaterYear};
use river_tests::engine::records::*;
use river_tests::examples::*;
use river_tests::run::Run;

const ALL_MONTHS: u64 = 0xfff;

/// Asks for a right's short months; the board is to stay as it is.
fn ask(calls: &Calls, file: &[u8], board: &[u64], right: usize) -> [u64; 3] {
    let lent = board.to_vec();
    let told = (calls.short_months)(file, &lent, right);
    assert!(lent == board, "the board is changed");
    told
}

fn words(run: &Run, rights: usize) -> Vec<u64> {
    (0..rights).map(|right| run.word(right)).collect()
}

/// In the worked October right 2, of permit 13, has 701 of 900 and right 4, of permit 15, is
/// called. The others have what they ask for, right 3 from the lake.
#[test]
fn october_by_hand() {
    by_each(|calls| {
        let mut run = Run::of(calls, &october());
        assert_eq!(words(&run, 5), [0; 5]);
        assert_eq!(run.month(&OCTOBER_RUNOFF), 2);
        assert_eq!(words(&run, 5), [0, 0, 1, 0, 1]);
        assert_eq!([0, 1, 2, 3, 4].map(|right| run.short_months(right)[2]), [0, 0, 1, 0, 1]);
    });
}

/// One station. A right of 10; one of 5 that is not in use from November to March, which the
/// first calls where it is short; an instream right of 4, which nobody calls.
fn small_river() -> Basin {
    let mut summer = direct(2, 19100101, 0, 5);
    summer.months = 0b1111_1100_0001;
    Basin {
        stations: stations(&[(7, 1)]),
        rights: vec![direct(1, 19000101, 0, 10), summer, instream(3, 19200101, 0, 4)],
        ..Basin::default()
    }
}

/// Runoff of fourteen months, who of the three is short in each, and how many short months
/// each has then had since October.
const MONTHS: [(u32, [u64; 3], [u64; 3]); 14] = [
    (20, [0, 0, 0], [0, 0, 0]),
    (12, [0, 0, 1], [0, 0, 1]), // 2 are left, and the second is not in use
    (9, [1, 0, 1], [1, 0, 2]),
    (30, [0, 0, 0], [1, 0, 2]),
    (10, [0, 0, 1], [1, 0, 3]),
    (14, [0, 0, 0], [1, 0, 3]),
    (14, [0, 1, 1], [1, 1, 4]), // the second has 4 of 5
    (19, [0, 0, 0], [1, 1, 4]),
    (16, [0, 0, 1], [1, 1, 5]),
    (0, [1, 1, 1], [2, 2, 6]),
    (15, [0, 0, 1], [2, 2, 7]),
    (8, [1, 1, 1], [3, 3, 8]),
    (9, [1, 1, 1], [1, 1, 1]), // October again
    (13, [0, 0, 1], [1, 1, 2]),
];

/// The words of the first year after September: of the first right December, July and
/// September, of the second April, July and September, of the third all but October, January,
/// March and May.
const YEAR: [u64; 3] = [0b1010_0000_0100, 0b1010_0100_0000, 0b1111_0101_0110];

#[test]
fn fourteen_months() {
    by_each(|calls| {
        let mut run = Run::of(calls, &small_river());
        for (month, (runoff, short, months)) in MONTHS.into_iter().enumerate() {
            assert_eq!(run.month(&[runoff]), short.iter().sum(), "month {month}");
            for right in 0..3 {
                assert_eq!(run.word(right) >> (month % 12), short[right], "right {right}");
                assert_eq!(run.short_months(right), [0, 0, months[right]], "month {month}");
            }
            match month {
                11 => assert_eq!(words(&run, 3), YEAR),
                12 => assert_eq!(words(&run, 3), [1, 1, 1]),
                13 => assert_eq!(words(&run, 3), [1, 1, 3]),
                _ => (),
            }
        }
    });
}

/// The same year by a run, from every month on; before it a run that is refused.
#[test]
fn a_years_run_keeps_its_months() {
    let sheets = |last: u32| {
        let mut runoff: Vec<u32> = MONTHS[..12].iter().map(|month| month.0).collect();
        runoff[11] = last;
        runoff
    };
    let book = encode(&[
        WaterYear { year: 1964, runoff: sheets(8) },
        WaterYear { year: 1965, runoff: sheets(MOST_RUNOFF + 1) },
    ]);
    by_each(|calls| {
        for m in 0..12 {
            let mut run = Run::of(calls, &small_river());
            MONTHS[..m].iter().for_each(|month| _ = run.month(&[month.0]));
            let before = words(&run, 3);
            assert_eq!(run.year(&book, 1965), (8, 0));
            assert_eq!(words(&run, 3), before, "a refused run, month {m}");
            assert_eq!(run.year(&book, 1964), (0, 12 - m as u64));
            assert_eq!(words(&run, 3), YEAR, "from month {m}");
            // A second year has nothing of the first: in it all are short in every month.
            let dry = encode(&[WaterYear { year: 1966, runoff: vec![0; 12] }]);
            assert_eq!(run.year(&dry, 1966), (0, 12));
            assert_eq!(words(&run, 3), [ALL_MONTHS, 0b1111_1100_0001, ALL_MONTHS]);
        }
    });
}

/// A board whose words say so of every month, run in each: the month's own bit is
/// overwritten, the others stay, and October clears them. A refused month leaves all.
#[test]
fn full_words_in_every_month() {
    let file = small_river().encode();
    // Who is short of so much runoff in season, and from November to March.
    let cases = [(19, [0, 0, 0], [0, 0, 0]), (18, [0, 0, 1], [0, 0, 0]), (0, [1, 1, 1], [1, 0, 1])];
    by_each(|calls| {
        for m in 0..12 {
            for (runoff, in_season, in_winter) in cases {
                let at = format!("month {m}, runoff {runoff}");
                let short = if (1..=5).contains(&m) { in_winter } else { in_season };
                let mut full = vec![0; BOARD];
                full[NEXT_MONTH] = m;
                full[SHORT..SHORT + 3].fill(ALL_MONTHS);
                let (mut board, mut report) = (full.clone(), [0; 15]);
                let over = (calls.month)(&file, &[MOST_RUNOFF + 1], &mut board, &mut report);
                assert_eq!((over, &board), ((8, 0), &full), "{at}");
                let answer = (calls.month)(&file, &[runoff], &mut board, &mut report);
                assert_eq!(answer, (0, short.iter().sum()), "{at}");
                let (others, eleven) = if m == 0 { (0, 0) } else { (ALL_MONTHS - (1 << m), 11) };
                full[NEXT_MONTH] = (m + 1) % 12;
                for (right, bit) in short.into_iter().enumerate() {
                    full[SHORT + right] = others + (bit << m);
                    assert_eq!(ask(calls, &file, &board, right), [0, 0, eleven + bit], "{at}");
                }
                assert_eq!(board, full, "{at}");
            }
        }
    });
}

/// Every word there is, of a right among others whose words are full.
#[test]
fn every_word() {
    let file = small_river().encode();
    let mut board = vec![0; BOARD];
    board[SHORT..SHORT + 3].fill(ALL_MONTHS);
    by_each(|calls| {
        let mut board = board.clone();
        for word in 0..=ALL_MONTHS {
            board[SHORT + 1] = word;
            let bits = (0..12).filter(|m| word & (1 << m) != 0).count() as u64;
            assert_eq!(ask(calls, &file, &board, 1), [0, 0, bits], "{word:#b}");
            assert_eq!(ask(calls, &file, &board, 2), [0, 0, 12]);
            // What is due has nothing of it.
            assert_eq!((calls.stock)(&file, &board), [0, 0, 0, 0]);
        }
        assert_eq!((calls.fresh)(&file, &mut board), (0, 0));
        assert_eq!(board, [0; BOARD]);
    });
}
