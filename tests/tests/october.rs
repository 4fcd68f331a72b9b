//! The October that 01 works out (One October, whole), from its words and from the
//! sample file; board and report are asked of every engine.

use river_tests::calls::by_each;
use river_tests::engine::board::{due, BOARD};
use river_tests::engine::records::{Basin, MOST_RUNOFF};
use river_tests::engine::tally::{self, Tally};
use river_tests::examples::{direct, months_bytes, october, pattern, stations, OCTOBER_RUNOFF};
use river_tests::listing::listing;
use river_tests::run::Run;

const PRINTED: &str = "\
MONTH PERMIT RIVER STORE WHY AT
0 11 1500 0 0 0
0 12 1201 0 0 0
0 13 701 0 2 300
0 14 0 600 0 0
0 15 0 0 1 100
0 end 0 75 1026 403
";

#[test]
fn listing_is_the_printed_one() {
    assert_eq!(listing(&october().encode(), &months_bytes(&OCTOBER_RUNOFF)), PRINTED);
}

#[test]
fn sample_file_is_the_october_of_the_words() {
    let basin = include_bytes!("../../samples/october.basin.bin");
    let months = include_bytes!("../../samples/october.months.bin");
    assert_eq!(october().encode(), basin);
    assert_eq!(months_bytes(&OCTOBER_RUNOFF), months);
    assert_eq!(listing(basin, months), PRINTED);
}

#[test]
fn board_and_report_by_hand() {
    let file = october().encode();
    let mut start = vec![0; BOARD];
    start[1] = 1000;
    // Right 12 returns 1201 - 396 = 805: 402 now, 242 and 161 later.
    // Flow at row 0: 2000 - 701 stored + 600 released; row 1: 2700 - 1201 - 701;
    // row 2: 3000 - 1500 - 1201 + 402 - 701 = 0. The lake, at 1101 on the way from 10 acres
    // at 0 to 20 at 2000, has 15: with a depth of 5 it loses 75.
    let mut told = vec![1500, 0, 0, 0, 1201, 0, 0, 0, 701, 0, 2, 300];
    told.extend([0, 600, 0, 0, 0, 0, 1, 100]);
    // By 50, 30 and 20 percent all of the 805 return: the 28th number, what goes deep, is 0.
    told.extend([1899, 1299, 798, 798, 0, 0, 75, 0, 99, 99]);
    let mut after = vec![0; BOARD];
    after[0] = 1;
    after[1] = 1000 + 701 - 600 - 75;
    after[10 + 2] = 701;
    after[266 + 11 * 2] = 242;
    after[266 + 11 * 2 + 1] = 161;
    // Rights 13 and 15 are short in October, the month of bit 0.
    (after[970 + 2], after[970 + 4]) = (1, 1);
    by_each(|calls| {
        assert_eq!((calls.check)(&file), (0, 0));
        let mut board = vec![7; BOARD];
        assert_eq!((calls.fresh)(&file, &mut board), (0, 0));
        assert_eq!(board, start);
        let mut report = vec![99; 28 + 2];
        let answer = (calls.month)(&file, &OCTOBER_RUNOFF, &mut board, &mut report);
        assert_eq!(answer, (0, 2));
        // Right 13 names 300: before its grant the available flow was 2000, 1499 and,
        // lowest, 701 there. Right 15 is called by 13, at its own row.
        assert_eq!(report, told);
        assert_eq!(board, after);
        assert_eq!((calls.stock)(&file, &board), [0, 0, 1026, 403]);
    });
}

#[test]
fn tally_of_october() {
    let mut tally = Tally::new(&october().encode());
    assert_eq!(tally.call(&OCTOBER_RUNOFF, 28), (0, 2));
    assert_eq!(tally.storages, [1026]);
    assert_eq!(tally.pending_returns()[2][..3], [242, 161, 0]);
}

/// The list marked M in 01.
#[test]
fn marked_list() {
    use river_tests::engine::slip::Faithful;
    use river_tests::engine::split::{area, consumption, Split};
    let pattern = october().patterns[0];
    for (amount, shares) in [(805, [402, 242, 161]), (1, [0, 0, 1]), (0, [0, 0, 0])] {
        let mut split = Split::of(amount);
        let told: Vec<i64> = pattern.iter().map(|&p| split.share(&Faithful, p)).collect();
        assert_eq!(told[..3], shares);
        assert_eq!(told[3..], [0; 9]);
        let slow: Vec<i64> =
            tally::split(amount as i128, &pattern).iter().map(|&share| share as i64).collect();
        assert_eq!(slow, told);
    }
    assert_eq!(consumption(&Faithful, 1, 33), 0);
    let table = october().reservoirs[0].area_capacity;
    for (storage, acres) in [(1999, 19), (2000, 20), (7500, 40)] {
        assert_eq!(area(&Faithful, &table, storage), acres);
        assert_eq!(tally::area(&table, storage as i128), acres as i128);
    }
    assert_eq!(tally::row_below(&october().stations, 0), Some(1));
    assert_eq!(tally::path(&october().stations, 0), [0, 1, 2]);
}

/// The same list where a month call shows it.
#[test]
fn marked_list_in_months() {
    // 805, 1 and 0 by the pattern: row 1 has the first share at once, the rest is due.
    let river = |amount, efficiency| Basin {
        stations: stations(&[(100, 1), (200, 1)]),
        patterns: vec![pattern(&[50, 30, 20])],
        rights: vec![direct(1, 19000101, 0, amount).returning(efficiency, 0, &[(1, 100)])],
        ..Basin::default()
    };
    // The last: of 1 at 33 percent nothing is consumed, so all of it returns.
    let splits =
        [(805, 0, [402, 242, 161]), (1, 0, [0, 0, 1]), (0, 0, [0, 0, 0]), (1, 33, [0, 0, 1])];
    // A unit of depth takes as many units as there are acres.
    let lake = |start| {
        let mut basin = october();
        basin.rights.clear();
        basin.reservoirs[0].capacity = 8000;
        basin.reservoirs[0].start = start;
        basin.reservoirs[0].depths[0] = 1;
        basin
    };
    by_each(|calls| {
        for (amount, efficiency, [now, next, after]) in splits {
            let mut run = Run::of(calls, &river(amount, efficiency));
            assert_eq!(run.month(&[1000, 0]), 0);
            assert_eq!(run.flow(), [1000 - amount as u64, 1000 - amount as u64 + now]);
            assert_eq!((run.board[due(1, 1)], run.board[due(1, 2)]), (next, after));
            assert_eq!(run.stock(), [0, 0, 0, next + after]);
        }
        for (storage, acres) in [(1999, 19), (2000, 20), (7500, 40)] {
            let mut run = Run::of(calls, &lake(storage));
            run.month(&OCTOBER_RUNOFF);
            assert_eq!(run.evaporation(), [acres]);
            // The row below station 100 is 200, and 300 below that.
            assert_eq!(run.flow(), [2000, 2700, 3000]);
        }
    });
}

#[test]
fn months_word_zero_means_no_demand() {
    let mut basin = october();
    basin.rights[0].months = 0;
    by_each(|calls| {
        let mut run = Run::of(calls, &basin);
        run.month(&OCTOBER_RUNOFF);
        assert_eq!(run.grants()[0], [0, 0, 0, 0]);
    });
}

mod program {
    use super::*;

    const HEADER: &str = "MONTH PERMIT RIVER STORE WHY AT\n";

    #[test]
    fn empty_months_print_the_header_alone() {
        assert_eq!(listing(&october().encode(), &[]), HEADER);
    }

    #[test]
    fn empty_basin_is_refused_with_or_without_months() {
        let refused = format!("{HEADER}refused 1 0\n");
        assert_eq!(listing(&[], &[]), refused);
        assert_eq!(listing(&[], &months_bytes(&OCTOBER_RUNOFF)), refused);
    }

    #[test]
    fn short_last_part_comes_after_the_whole_months() {
        let mut months = months_bytes(&OCTOBER_RUNOFF);
        for extra in 1..12 {
            months.push(255);
            let expected = format!("{PRINTED}refused 6 0\n");
            assert_eq!(listing(&october().encode(), &months), expected, "{extra} bytes more");
        }
        // The twelfth byte makes it a whole month, over the limit at row 0.
        months.push(255);
        assert_eq!(listing(&october().encode(), &months), format!("{PRINTED}refused 8 0\n"));
    }

    #[test]
    fn refused_month_ends_the_run() {
        let months = [&OCTOBER_RUNOFF[..], &[0, MOST_RUNOFF + 1, 0], &OCTOBER_RUNOFF].concat();
        let text = listing(&october().encode(), &months_bytes(&months));
        assert_eq!(text, format!("{PRINTED}refused 8 1\n"));
    }

    #[test]
    fn refused_basin_tells_number_and_place() {
        let mut basin = october();
        basin.rights[3].efficiency = 99;
        let text = listing(&basin.encode(), &months_bytes(&OCTOBER_RUNOFF));
        assert_eq!(text, format!("{HEADER}refused 5 3\n"));
    }
}
