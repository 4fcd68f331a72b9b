//! Small rivers worked out by hand, one rule each, asked of every engine.

use river_tests::calls::by_each;
use river_tests::engine::board::{due, MARKS, NEXT_MONTH, STORAGES, TAKEN};
use river_tests::engine::records::*;
use river_tests::examples::*;
use river_tests::run::Run;

const NO_AREA: [(u32, u32); 4] = [(0, 0), (1, 0), (2, 0), (3, 0)];

/// Stations 1, 2, 3, … of these orders.
fn rows(orders: &[u8]) -> Vec<Station> {
    let list: Vec<_> = orders.iter().enumerate().map(|(n, &o)| (n as u32 + 1, o)).collect();
    stations(&list)
}

/// Rows 0 and 1 join at row 2, that at 3; row 4 joins at row 5.
#[test]
fn flow_gathers_by_order() {
    by_each(|calls| {
        let basin = Basin { stations: rows(&[2, 3, 2, 1, 2, 1, 1]), ..Basin::default() };
        let mut run = Run::of(calls, &basin);
        run.month(&[1, 10, 100, 1000, 10_000, 100_000, 1_000_000]);
        let flows = [1, 10, 111, 1111, 10_000, 111_111, 1_111_111];
        assert_eq!(run.flow(), flows);
        assert_eq!(run.available(), flows);
    });
}

/// A right on one tributary does not touch the other; the lowest row of its path
/// holds it.
#[test]
fn a_diversion_leaves_its_own_path_alone() {
    by_each(|calls| {
        let basin = Basin {
            stations: rows(&[2, 3, 2, 1]),
            rights: vec![
                direct(1, 19000101, 3, 60),
                direct(2, 19100101, 1, 10),
                direct(3, 19200101, 0, 50),
            ],
            ..Basin::default()
        };
        let mut run = Run::of(calls, &basin);
        // Rows: 0 -> 2, 1 -> 2, 2 -> 3. Flow 30, 20, 50, 100.
        assert_eq!(run.month(&[30, 20, 0, 50]), 1);
        // The last finds 30 at row 0 and at row 3 (100 - 60 - 10), the first of which is
        // named, and 40 at row 2.
        assert_eq!(run.grants(), [[60, 0, 0, 0], [10, 0, 0, 0], [30, 0, 2, 1]]);
        assert_eq!(run.flow(), [0, 10, 10, 0]);
    });
}

/// A return is open to later rights at once, not to a senior already served.
#[test]
fn a_return_is_for_later_rights() {
    by_each(|calls| {
        let basin = Basin {
            // Row 1 is a tributary; rows 0 and 1 both join at row 2.
            stations: rows(&[1, 2, 1]),
            patterns: vec![pattern(&[100])],
            rights: vec![
                direct(1, 19000101, 1, 100),
                direct(2, 19100101, 0, 30).returning(0, 0, &[(1, 100)]),
                instream(3, 19200101, 1, 25),
            ],
            ..Basin::default()
        };
        let mut run = Run::of(calls, &basin);
        // Flow 50, 40, 90. The senior takes the tributary's 40 and is short of 60. The
        // second takes 30 on the other branch, where nobody is short, and returns them
        // to the tributary: too late for the senior, in time for the third.
        assert_eq!(run.month(&[50, 40, 0]), 1);
        assert_eq!(run.grants(), [[40, 0, 2, 2], [30, 0, 0, 0], [25, 0, 0, 0]]);
        assert_eq!((run.flow(), run.available()), (vec![20, 30, 50], vec![20, 5, 50]));
    });
}

/// Called, but storage makes it whole: not short, and it calls nobody. Called and
/// short: reason 3, named the reservoir's station.
#[test]
fn a_called_project_right() {
    by_each(|calls| {
        let lake = |start| Basin {
            stations: rows(&[1, 1, 1]),
            reservoirs: vec![reservoir(0, 1000, start, NO_AREA)],
            rights: vec![
                direct(1, 19000101, 1, 100),
                project(2, 19100101, 1, 0, 70),
                direct(3, 19200101, 2, 10),
            ],
            ..Basin::default()
        };
        let mut run = Run::of(calls, &lake(80));
        assert_eq!(run.month(&[20, 10, 30]), 1);
        assert_eq!(run.grants(), [[30, 0, 2, 2], [0, 70, 0, 0], [10, 0, 0, 0]]);
        assert_eq!(run.board[STORAGES], 10);
        // Row 0 has its own 20 and carries the release of 70, which is open to nobody.
        assert_eq!((run.flow(), run.available()), (vec![90, 0, 20], vec![20, 0, 20]));
        let mut run = Run::of(calls, &lake(69));
        assert_eq!(run.month(&[20, 10, 30]), 2);
        assert_eq!(run.grants()[1], [0, 69, 3, 1]);
    });
}

/// A project right at its reservoir's own row: its release raises flow nowhere.
#[test]
fn a_release_at_the_lake_itself() {
    by_each(|calls| {
        let basin = Basin {
            stations: rows(&[1, 1]),
            reservoirs: vec![reservoir(0, 1000, 500, NO_AREA)],
            rights: vec![project(1, 19000101, 0, 0, 70)],
            ..Basin::default()
        };
        let mut run = Run::of(calls, &basin);
        assert_eq!(run.month(&[20, 3]), 0);
        assert_eq!(run.grants(), [[20, 50, 0, 0]]);
        assert_eq!(run.flow(), [0, 3]);
    });
}

/// Short rights of every kind call; an instream right is never called itself.
#[test]
fn short_instream_and_storage_rights_call() {
    by_each(|calls| {
        let basin = Basin {
            stations: rows(&[1, 1, 1]),
            reservoirs: vec![reservoir(1, 1000, 0, NO_AREA)],
            rights: vec![
                instream(1, 19000101, 2, 100),
                storage(2, 19100101, 1, 0, 50, 500),
                instream(3, 19200101, 0, 7),
                direct(4, 19300101, 0, 5),
            ],
            ..Basin::default()
        };
        let mut run = Run::of(calls, &basin);
        assert_eq!(run.month(&[10, 20, 30]), 3);
        let grants = run.grants();
        assert_eq!(grants[0], [60, 0, 2, 3]);
        assert_eq!(grants[1], [0, 0, 1, 3]);
        assert_eq!(grants[2], [7, 0, 0, 0]);
        // Called by 1 at row 2 and by 2 at row 1, which is the first on its way.
        assert_eq!(grants[3], [0, 0, 1, 2]);
        assert_eq!((run.flow(), run.available()), (vec![10, 30, 60], vec![3, 30, 0]));
    });
}

/// A storage right wants what limit and capacity leave of its amount: it is short only
/// against that. Capacity left is that at its turn.
#[test]
fn what_a_storage_right_wants() {
    by_each(|calls| {
        let basin = Basin {
            stations: rows(&[1]),
            reservoirs: vec![reservoir(0, 100, 50, NO_AREA)],
            rights: vec![
                storage(1, 19000101, 0, 0, 900, 20),
                project(2, 19100101, 0, 0, 2000),
                storage(3, 19200101, 0, 0, 900, 2000),
            ],
            ..Basin::default()
        };
        let mut run = Run::of(calls, &basin);
        // 20 of the limit; then the river's 980 and all 70 in the lake; then the third
        // wants 100, is called by the second, and gets nothing.
        assert_eq!(run.month(&[1000]), 2);
        assert_eq!(run.grants(), [[20, 0, 0, 0], [980, 70, 3, 1], [0, 0, 1, 1]]);
        assert_eq!((run.board[STORAGES], run.board[TAKEN]), (0, 20));
        // With water enough the second takes 1000 more and leaves the lake as it is.
        assert_eq!(run.month(&[5000]), 0);
        assert_eq!(run.grants(), [[0, 0, 0, 0], [2000, 0, 0, 0], [100, 0, 0, 0]]);
        assert_eq!((run.board[MARKS], run.board[TAKEN + 2]), (1, 100));
    });
}

/// The mark counts in the same month for the lake's other storage rights.
#[test]
fn a_mark_counts_at_once() {
    by_each(|calls| {
        let basin = Basin {
            stations: rows(&[1]),
            reservoirs: vec![reservoir(0, 100, 50, NO_AREA), reservoir(0, 100, 0, NO_AREA)],
            rights: vec![
                storage(1, 19000101, 0, 0, 50, 1000),
                project(2, 19000101, 0, 0, 40),
                storage(3, 19200101, 0, 0, 900, 1000),
                storage(4, 19300101, 0, 1, 30, 1000),
            ],
            ..Basin::default()
        };
        let mut run = Run::of(calls, &basin);
        // 50 fill lake 0; 10 from the river and 30 from the lake; lake 0 is marked, so
        // the third wants nothing and calls nobody; lake 1 is another lake, and the river is dry.
        assert_eq!(run.month(&[60]), 1);
        assert_eq!(run.grants(), [[50, 0, 0, 0], [10, 30, 0, 0], [0; 4], [0, 0, 2, 1]]);
        assert_eq!((run.board[MARKS], run.board[STORAGES]), (1, 70));
    });
}

/// Over the points first, then over the months: 7 over 50, 50 is 3 and 4; 3 over 50, 50
/// is 1 and 2, 4 is 2 and 2.
#[test]
fn shares_over_points_then_months() {
    by_each(|calls| {
        let basin = Basin {
            stations: rows(&[2, 2, 1]),
            patterns: vec![pattern(&[50, 50])],
            rights: vec![direct(1, 19000101, 0, 10).returning(33, 0, &[(1, 50), (2, 50)])],
            ..Basin::default()
        };
        let mut run = Run::of(calls, &basin);
        // 10 diverted, floor(3.3) = 3 consumed, 7 returned.
        assert_eq!(run.month(&[10, 0, 0]), 0);
        assert_eq!(run.flow(), [0, 1, 3]);
        assert_eq!((run.board[due(1, 1)], run.board[due(2, 1)]), (2, 2));
        // Next month they are flow; nothing is diverted.
        assert_eq!(run.month(&[0, 0, 0]), 1);
        assert_eq!(run.flow(), [0, 2, 4]);
        assert_eq!((run.board[due(1, 1)], run.board[due(2, 1)]), (0, 0));
    });
}

/// A return eleven months late arrives eleven months later, and only then; a
/// return may come back on another tributary than the diversion.
#[test]
fn a_return_after_eleven_months() {
    by_each(|calls| {
        let late = pattern(&[0, 0, 0, 0, 0, 0, 0, 0, 0, 0, 0, 100]);
        let mut right = direct(1, 19000101, 0, 9).returning(0, 0, &[(2, 100)]);
        right.months = 1; // October alone
        let basin = Basin {
            // Rows 0 and 1 are the main river down to row 3; row 2 is a tributary of 3.
            stations: rows(&[1, 1, 2, 1]),
            patterns: vec![late],
            rights: vec![right],
            ..Basin::default()
        };
        let mut run = Run::of(calls, &basin);
        run.month(&[20, 0, 0, 0]);
        assert_eq!(run.flow(), [11, 11, 0, 11]);
        assert_eq!(run.board[due(2, 11)], 9);
        for months_later in 1..=11 {
            run.month(&[0, 0, 0, 0]);
            let arrived = if months_later == 11 { 9 } else { 0 };
            assert_eq!(run.flow(), [0, 0, arrived, arrived], "{months_later} months later");
        }
        assert_eq!(run.board[NEXT_MONTH], 0);
        assert!(run.board[due(0, 1)..].iter().all(|&number| number == 0));
    });
}

/// Evaporation looks at the storage after step 3, and takes no more than is there.
#[test]
fn evaporation_after_the_rights() {
    by_each(|calls| {
        let mut lake = reservoir(0, 1000, 90, [(0, 3), (100, 7), (101, 9), (102, 11)]);
        lake.depths = [10; MONTHS];
        let basin = Basin {
            stations: rows(&[1]),
            reservoirs: vec![lake],
            rights: vec![storage(1, 19000101, 0, 0, 10, 1000)],
            ..Basin::default()
        };
        let mut run = Run::of(calls, &basin);
        // 90 + 10 are at the second pair: 7 acres, 70 units; 30 are left.
        run.month(&[500]);
        assert_eq!((run.evaporation()[0], run.board[STORAGES]), (70, 30));
        // 30 + 10 have 3 acres and 40 hundredths of the 4 to the next pair, floored to 1:
        // all 40 are lost. Then 10 would lose 30 and lose 10.
        run.month(&[500]);
        assert_eq!((run.evaporation()[0], run.board[STORAGES]), (40, 0));
        run.month(&[500]);
        assert_eq!((run.evaporation()[0], run.board[STORAGES]), (10, 0));
    });
}
