//! Water that goes deep, worked out by hand and asked of every engine (02, No. 5).

use river_tests::calls::by_each;
use river_tests::engine::board::{due, BOARD};
use river_tests::engine::book::{encode, WaterYear};
use river_tests::engine::records::*;
use river_tests::engine::report::LONGEST;
use river_tests::engine::slip::Faithful;
use river_tests::engine::split::Split;
use river_tests::engine::tally;
use river_tests::examples::*;
use river_tests::listing::listing;
use river_tests::run::Run;
use std::fs;
use std::path::Path;

/// Amount, percents, shares and deep loss.
const SPLITS: &[(u32, &[u8], &[u64], u64)] = &[
    (805, &[50, 30], &[402, 242], 161),
    (805, &[50, 30, 20], &[402, 242, 161], 0),
    (805, &[], &[0], 805),
    (1, &[50], &[0], 1),
    (1, &[0, 50, 50], &[0, 0, 1], 0),
    (0, &[50], &[0], 0),
    (99, &[1], &[0], 99),
    (100, &[1], &[1], 99),
    // 2.31, 2.31, 4.62 and 6.93 up to each month; rounded down, 1 is left.
    (7, &[33, 0, 33, 33], &[2, 0, 2, 2], 1),
    (10, &[0, 0, 0, 0, 0, 0, 0, 0, 0, 0, 0, 25], &[0, 0, 0, 0, 0, 0, 0, 0, 0, 0, 0, 2], 8),
    (42_949_672, &[99], &[42_520_175], 429_497),
    (42_949_673, &[99], &[42_520_176], 429_497),
    (1_000_000_000, &[0, 99], &[0, 990_000_000], 10_000_000),
];

#[test]
fn splits_by_hand() {
    for &(amount, percents, shares, deep) in SPLITS {
        let mut split = Split::of(amount as i64);
        let twelve = pattern(percents);
        let told = twelve.map(|percent| split.share(&Faithful, percent) as u64);
        assert_eq!(split.left(&Faithful) as u64, deep, "{amount} by {percents:?}");
        let slow = tally::split(amount as i128, &twelve);
        assert!(slow.iter().zip(told).all(|(&slow, share)| slow == share as i128));
        let (first, rest) = told.split_at(shares.len());
        assert_eq!(first, shares, "{amount} by {percents:?}");
        assert!(rest.iter().all(|&share| share == 0), "{amount} by {percents:?}");
    }
}

/// Two rows; a right at the upper one returns all that it has at the lower.
fn two_rows(amount: u32, percents: &[u8]) -> Basin {
    Basin {
        stations: stations(&[(1, 1), (2, 1)]),
        patterns: vec![pattern(percents)],
        rights: vec![direct(1, 19000101, 0, amount).returning(0, 0, &[(1, 100)])],
        ..Basin::default()
    }
}

#[test]
fn splits_in_a_month() {
    by_each(|calls| {
        for &(amount, percents, shares, deep) in SPLITS {
            let mut run = Run::of(calls, &two_rows(amount, percents));
            assert_eq!(run.month(&[amount, 0]), 0);
            assert_eq!(run.flow(), [0, shares[0]], "{amount} by {percents:?}");
            for k in 1..=11 {
                let share = shares.get(k).copied().unwrap_or(0);
                assert_eq!(run.board[due(1, k)], share, "{amount} by {percents:?}, {k} months on");
            }
            assert_eq!(run.deep_loss(), deep, "{amount} by {percents:?}");
        }
    });
}

/// 3 are returned, 1 at one point and 2 at the other. By 80 percent 1 leaves nothing and 2
/// leave 1 in the river, so that each part loses 1; of the whole 3 only 1 would be lost.
#[test]
fn each_part_loses_by_itself() {
    by_each(|calls| {
        let basin = Basin {
            stations: stations(&[(1, 1), (2, 1), (3, 1)]),
            patterns: vec![pattern(&[50, 30])],
            rights: vec![direct(1, 19000101, 0, 3).returning(0, 0, &[(1, 50), (2, 50)])],
            ..Basin::default()
        };
        let mut run = Run::of(calls, &basin);
        assert_eq!(run.month(&[3, 0, 0]), 0);
        assert_eq!((run.flow(), run.deep_loss()), (vec![0, 0, 1], 2));
        assert_eq!(run.stock(), [0, 0, 0, 0]);
    });
}

/// The worked October with its pattern cut to 50 and 30. Of the 805 that right 12 returns
/// 402 flow at once and 242 a month later as before; the 161 of December have gone deep.
fn october_cut() -> Basin {
    Basin { patterns: vec![pattern(&[50, 30])], ..october() }
}

#[test]
fn october_with_its_pattern_cut() {
    let file = october_cut().encode();
    let mut told = vec![1500, 0, 0, 0, 1201, 0, 0, 0, 701, 0, 2, 300];
    told.extend([0, 600, 0, 0, 0, 0, 1, 100]);
    told.extend([1899, 1299, 798, 798, 0, 0, 75, 161]);
    let mut after = vec![0; BOARD];
    (after[0], after[1], after[10 + 2]) = (1, 1026, 701);
    after[266 + 11 * 2] = 242;
    (after[970 + 2], after[970 + 4]) = (1, 1);
    // 3000 of runoff and 1000 stored: consumed 1500, 396 and 600, evaporated, stored, on
    // their way and deep.
    assert_eq!(2000 + 700 + 300 + 1000, 1500 + 396 + 600 + 75 + 1026 + 242 + 161);
    by_each(|calls| {
        let mut board = vec![7; BOARD];
        assert_eq!((calls.fresh)(&file, &mut board), (0, 0));
        let mut report = vec![99; 28];
        let answer = (calls.month)(&file, &OCTOBER_RUNOFF, &mut board, &mut report[..27]);
        assert_eq!(answer, (6, 0));
        let answer = (calls.month)(&file, &OCTOBER_RUNOFF, &mut board, &mut report);
        assert_eq!((answer, report), ((0, 2), told.clone()));
        assert_eq!(board, after);
        assert_eq!((calls.stock)(&file, &board), [0, 0, 1026, 242]);
    });
}

/// The last lines that `rivercalls` prints: October by other patterns.
#[test]
fn october_by_the_patterns_of_rivercalls() {
    let folder = Path::new(env!("CARGO_MANIFEST_DIR")).join("../crates/rivercalls");
    let text = fs::read_to_string(folder.join("stdout")).unwrap();
    by_each(|calls| {
        let mut lines = String::new();
        for (name, percents) in [
            ("50, 30, 20", &[50, 30, 20][..]),
            ("50, 30", &[50, 30]),
            ("zeros", &[]),
            ("50, 30, 21", &[50, 30, 21]),
            ("255, 100, 1", &[255, 100, 1]),
        ] {
            let file = Basin { patterns: vec![pattern(percents)], ..october() }.encode();
            let (mut board, mut report) = (vec![0; BOARD], vec![0; 28]);
            (calls.fresh)(&file, &mut board);
            let answer = (calls.month)(&file, &OCTOBER_RUNOFF, &mut board, &mut report);
            lines += &format!("month by {name}: {} {}\n", answer.0, answer.1);
            if answer.0 == 0 {
                let [.., storage, pending] = (calls.stock)(&file, &board);
                lines += &format!("deep {}\nstock 0 0 {storage} {pending}\n", report[27]);
            }
        }
        assert!(text.ends_with(&format!("\n{lines}")), "{lines}");
    });
}

/// Of the listing of two months only what is on its way is another: it has no place for
/// what has gone deep.
#[test]
fn the_listing_does_not_tell_deep_loss() {
    let sheets = months_bytes(&OCTOBER_RUNOFF.repeat(2));
    let whole = listing(&october().encode(), &sheets);
    let cut = listing(&october_cut().encode(), &sheets);
    assert!(whole.contains("0 end 0 75 1026 403\n") && whole.ends_with("1 end 0 0 1369 564\n"));
    let replaced = whole.replace("1026 403\n", "1026 242\n").replace("1369 564\n", "1369 242\n");
    assert_eq!(cut, replaced);
}

/// A grant of both parts: 20 from the river and 50 from the lake, of which 35 are consumed
/// and 14 of the other 35 return. A short right loses of what it has, 9 of 14, not of what
/// it asks for. An instream right, a storage right, one without points and one that
/// consumes all lose nothing. The month's total is that of all rights: 21 and 9.
#[test]
fn all_rights_together() {
    by_each(|calls| {
        let no_area = [(0, 0), (1, 0), (2, 0), (3, 0)];
        let basin = Basin {
            stations: stations(&[(1, 1), (2, 1)]),
            reservoirs: vec![reservoir(0, 1000, 50, no_area), reservoir(1, 9, 0, no_area)],
            patterns: vec![pattern(&[40]), pattern(&[])],
            rights: vec![
                instream(1, 19000101, 0, 6),
                storage(2, 19010101, 1, 1, 4, 100),
                direct(3, 19020101, 1, 1),
                direct(4, 19030101, 1, 10).returning(100, 1, &[(1, 100)]),
                project(5, 19040101, 1, 0, 70).returning(50, 0, &[(1, 100)]),
                direct(6, 19050101, 1, 100).returning(0, 0, &[(1, 100)]),
            ],
        };
        let mut run = Run::of(calls, &basin);
        // 30 and 5 flow. The river has 35 - 4 - 1 - 10 = 20 for the project right, whose 14
        // the last right finds: it loses 60 percent of them, rounded up, 14 - 5 = 9.
        assert_eq!(run.month(&[30, 5]), 1);
        let grants = run.grants();
        assert_eq!(grants[..3], [[6, 0, 0, 0], [4, 0, 0, 0], [1, 0, 0, 0]]);
        assert_eq!(grants[3..], [[10, 0, 0, 0], [20, 50, 0, 0], [14, 0, 2, 2]]);
        assert_eq!(run.deep_loss(), 21 + 9);
        assert_eq!(run.evaporation(), [0, 0]);
        assert_eq!(run.flow(), [80, 5]);
    });
}

/// One station. A right of 10 consumes half of what it has, rounded down; of the rest 60
/// percent return a month later.
fn small_river() -> Basin {
    Basin {
        stations: stations(&[(7, 1)]),
        patterns: vec![pattern(&[0, 60])],
        rights: vec![direct(1, 19000101, 0, 10).returning(50, 0, &[(0, 100)])],
        ..Basin::default()
    }
}

/// Runoff of each month, what is granted, flows out, goes deep and returns next month.
const YEAR: [(u32, u64, u64, u64, u64); 12] = [
    (10, 10, 0, 2, 3),
    (0, 3, 0, 1, 1), // 1 consumed, 2 returned, of which 1.2
    (0, 1, 0, 1, 0), // 1 returned, of which 0.6
    (0, 0, 0, 0, 0),
    (4, 4, 0, 1, 1),
    (30, 10, 21, 2, 3),
    (9, 10, 2, 2, 3),
    (0, 3, 0, 1, 1),
    (6, 7, 0, 2, 2), // 3 consumed, 4 returned, of which 2.4
    (0, 2, 0, 1, 0),
    (0, 0, 0, 0, 0),
    (10, 10, 0, 2, 3),
];

fn book() -> Vec<u8> {
    let runoff = YEAR.iter().map(|month| month.0).collect();
    encode(&[WaterYear { year: 1964, runoff }])
}

/// 69 of runoff: 23 flow out, 28 are consumed, 15 go deep, 3 are on their way.
#[test]
fn a_year_with_losses() {
    let sum = |number: fn(&(u32, u64, u64, u64, u64)) -> u64| YEAR.iter().map(number).sum::<u64>();
    assert_eq!((sum(|m| m.0 as u64), sum(|m| m.1 / 2)), (69, 28));
    assert_eq!((sum(|m| m.2), sum(|m| m.3)), (23, 15));
    assert_eq!(69, 23 + 28 + 15 + 3);
    by_each(|calls| {
        for m in 0..12 {
            let mut run = Run::of(calls, &small_river());
            for &(runoff, granted, outflow, deep, due) in &YEAR[..m] {
                run.month(&[runoff]);
                assert_eq!((run.grants()[0][0], run.flow()), (granted, vec![outflow]));
                assert_eq!((run.deep_loss(), run.stock()), (deep, [0, 0, 0, due]));
            }
            assert_eq!(run.year(&book(), 1964), (0, 12 - m as u64));
            for (call, &(_, granted, outflow, deep, _)) in YEAR[m..].iter().enumerate() {
                run.show(call);
                assert_eq!((run.grants()[0][0], run.flow()), (granted, vec![outflow]));
                assert_eq!(run.deep_loss(), deep, "call {call} from month {m}");
            }
            assert_eq!(run.stock(), [0, 0, 0, 3]);
        }
    });
}

/// One right, one row: a report has 4 + 2 + 1 numbers, those of a year twelve times as many.
#[test]
fn reports_have_a_place_more() {
    assert_eq!(LONGEST, 4 * 256 + 2 * 64 + 8 + 1);
    by_each(|calls| {
        let (file, book) = (small_river().encode(), book());
        let mut board = vec![0; BOARD];
        assert_eq!((calls.fresh)(&file, &mut board), (0, 0));
        let mut report = vec![9; 8];
        assert_eq!((calls.month)(&file, &[10], &mut board, &mut report[..6]), (6, 0));
        assert_eq!((calls.month)(&file, &[10], &mut board, &mut report), (0, 0));
        assert_eq!(report, [10, 0, 0, 0, 0, 0, 2, 9]);
        let mut reports = vec![9; 12 * 7];
        let (less, board) = (12 * 7 - 1, &mut board);
        assert_eq!((calls.run_year)(&file, &book, 1964, board, &mut reports[..less]), (6, 0));
        assert_eq!((calls.run_year)(&file, &book, 1964, board, &mut reports), (0, 11));
        assert_eq!(reports[..14], [3, 0, 2, 7, 0, 0, 1, 1, 0, 2, 7, 0, 0, 1]);
    });
}

/// Every sum that twelve bytes can have, with the high percents first and with them last;
/// the second of three patterns.
#[test]
fn every_sum_of_a_pattern() {
    by_each(|calls| {
        let mut basin = october();
        basin.patterns = vec![pattern(&[100]); 3];
        for sum in 0..=12 * 255usize {
            let high_first: Pattern =
                std::array::from_fn(|month| sum.saturating_sub(255 * month).min(255) as u8);
            let mut high_last = high_first;
            high_last.reverse();
            for percents in [high_first, high_last] {
                basin.patterns[1] = percents;
                let expected = if sum <= 100 { (0, 0) } else { (4, 1) };
                assert_eq!((calls.check)(&basin.encode()), expected, "{percents:?}");
            }
        }
    });
}
