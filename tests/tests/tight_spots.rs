//! The first tight spot downstream (02, No. 2), worked out by hand: where several rows
//! would do for reason 1 or 2, the first on the right's path is named, its own row first.

use river_tests::calls::by_each;
use river_tests::engine::records::Basin;
use river_tests::examples::*;
use river_tests::run::Run;

/// Rows 0 and 1 run to row 2, that to row 3.
#[test]
fn the_first_row_on_the_path_is_named() {
    by_each(|calls| {
        let mut run = Run::of(calls, &tight_spots());
        // 20, 0, 20, 20 are available, and after the first right 20, 0, 10, 10: the second
        // finds 10 at rows 2 and 3. Then 10, 0, 0, 0. The third is short at row 3 and calls
        // the fourth, which is short at row 2; both call the fifth. The sixth looks at its
        // own row.
        assert_eq!(run.month(&[20, 0, 0, 0]), 5);
        let grants = [
            [10, 0, 0, 0],
            [10, 0, 2, 30],
            [0, 0, 2, 40],
            [0, 0, 1, 40],
            [0, 0, 1, 30],
            [10, 0, 2, 10],
        ];
        assert_eq!(run.grants(), grants);
        // 0, 9, 9, 13: the first is short at its own row 2, and calls all that are above it
        // or there; the fourth has that row for its own.
        assert_eq!(run.month(&[0, 9, 0, 4]), 6);
        let grants = [
            [9, 0, 2, 30],
            [0, 0, 1, 30],
            [4, 0, 2, 40],
            [0, 0, 1, 30],
            [0, 0, 1, 30],
            [0, 0, 2, 10],
        ];
        assert_eq!(run.grants(), grants);
    });
}

/// The first on the path, not the one that was short first nor the eldest.
#[test]
fn the_order_of_the_list_does_not_matter() {
    by_each(|calls| {
        let basin = Basin {
            stations: stations(&[(1, 1), (2, 1), (3, 1)]),
            rights: vec![
                direct(1, 19000101, 2, 7),
                instream(2, 19100101, 1, 9),
                direct(3, 19200101, 0, 1),
            ],
            ..Basin::default()
        };
        let mut run = Run::of(calls, &basin);
        // The first takes the 5 that reach row 2 and is short of 2. The second, which nobody
        // calls, is short of 4 at row 1.
        assert_eq!(run.month(&[5, 0, 0]), 3);
        assert_eq!(run.grants(), [[5, 0, 2, 3], [5, 0, 2, 2], [0, 0, 1, 2]]);
    });
}

/// Storage rights are held back as direct rights are; a project right names its reservoir
/// whatever its river does.
#[test]
fn storage_and_project_rights() {
    by_each(|calls| {
        let lake = |row| reservoir(row, 1000, 0, [(0, 0), (1, 0), (2, 0), (3, 0)]);
        let basin = Basin {
            stations: stations(&[(1, 1), (2, 1), (3, 1)]),
            reservoirs: vec![lake(1), lake(0)],
            rights: vec![
                storage(1, 19000101, 1, 0, 50, 500),
                direct(2, 19100101, 2, 9),
                storage(3, 19200101, 0, 1, 50, 500),
                project(4, 19300101, 2, 0, 5),
            ],
            ..Basin::default()
        };
        let mut run = Run::of(calls, &basin);
        assert_eq!(run.month(&[0, 20, 0]), 3);
        // 20 at rows 1 and 2, of which row 1 is the storage right's own. Nothing is left,
        // and the third is called by both: row 1 comes first. The last, called too, has its
        // 5 from storage and is not short.
        assert_eq!(run.board[1..3], [15, 0]);
        assert_eq!(run.grants(), [[20, 0, 2, 2], [0, 0, 2, 3], [0, 0, 1, 2], [0, 5, 0, 0]]);
    });
}
