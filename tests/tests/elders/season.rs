//! A season worked out by hand: 01's October, then a dry November, by the basin of 01 and by
//! the same with its first right alone. In the first month of both the elder right has the same
//! line. What its juniors return late helps it in the second.

use river_tests::calls::{by_each, Calls};
use river_tests::engine::board::{due, BOARD, NEXT_MONTH, SHORT, STORAGES, TAKEN};
use river_tests::engine::records::Basin;
use river_tests::engine::Answer;
use river_tests::examples::{october, october_elder, OCTOBER_RUNOFF};
use river_tests::run::Run;

const NOVEMBER_RUNOFF: [u32; 3] = [0, 0, 300];

/// A board with these numbers at their places, and 0 elsewhere.
fn board_of(numbers: &[(usize, u64)]) -> Vec<u64> {
    let mut board = vec![0; BOARD];
    numbers.iter().for_each(|&(place, number)| board[place] = number);
    board
}

/// Right 12 returns 805: 402 at once, 242 a month later, 161 two months later. Right 13 has
/// stored 701, right 14 had 600 of it, and 5 over 15 acres have evaporated. Rights 13 and 15
/// were short.
fn after_october() -> Vec<u64> {
    let words = [(SHORT + 2, 1), (SHORT + 4, 1)];
    let dues = [(due(2, 1), 242), (due(2, 2), 161)];
    let lake = [(NEXT_MONTH, 1), (STORAGES, 1026), (TAKEN + 2, 701)];
    board_of(&[&lake[..], &dues, &words].concat())
}

/// The same without younger rights: the lake has lost 5 over the 15 acres of its 1000.
fn after_october_alone() -> Vec<u64> {
    board_of(&[(NEXT_MONTH, 1), (STORAGES, 925)])
}

#[test]
fn returns_of_younger_rights_help_an_elder_one_later() {
    by_each(|calls| {
        let mut all = Run::of(calls, &october());
        let mut alone = Run::of(calls, &october_elder());
        assert_eq!(all.board, alone.board, "the fresh boards");

        // 3000 reach row 2, and the first right takes its 1500 there.
        assert_eq!(all.month(&OCTOBER_RUNOFF), 2);
        assert_eq!(alone.month(&OCTOBER_RUNOFF), 0);
        assert_eq!(all.grants()[0], [1500, 0, 0, 0]);
        assert_eq!(alone.grants(), [[1500, 0, 0, 0]]);
        assert_eq!(alone.flow(), [2000, 2700, 1500]);
        assert_eq!(all.board, after_october());
        assert_eq!(alone.board, after_october_alone());

        // 300 of runoff and 242 of right 12's returns reach row 2; the first right is short
        // there, and calls all that divert above it. Right 12 is short at row 1 and right 13,
        // which wants 900, at row 0: they are the first on the paths of those that follow.
        // Right 14 has its 600 from storage, which pass row 0 on their way to row 1.
        assert_eq!(all.month(&NOVEMBER_RUNOFF), 4);
        let grants =
            [[542, 0, 2, 300], [0, 0, 1, 300], [0, 0, 1, 200], [0, 600, 0, 0], [0, 0, 1, 100]];
        assert_eq!(all.grants(), grants);
        assert_eq!((all.flow(), all.available()), (vec![600, 0, 0], vec![0, 0, 0]));
        assert_eq!(all.stock(), [0, 0, 426, 161]);

        // Without them there is the runoff alone.
        assert_eq!(alone.month(&NOVEMBER_RUNOFF), 1);
        assert_eq!(alone.grants(), [[300, 0, 2, 300]]);
        assert_eq!(alone.stock(), [0, 0, 925, 0]);
    });
}

/// A dry November on a board: the answer, and the first right's line.
fn november(calls: &Calls, basin: &Basin, board: &[u64]) -> (Answer, [u64; 4]) {
    let mut report = vec![9; basin.report_length()];
    let answer = (calls.month)(&basin.encode(), &NOVEMBER_RUNOFF, &mut board.to_vec(), &mut report);
    (answer, report[..4].try_into().unwrap())
}

/// It was the board that made the difference, not who else has a right in that month.
#[test]
fn on_one_board_the_elder_right_has_the_same_line() {
    by_each(|calls| {
        // What right 13 has taken and who was short have no place where there is no such
        // right. Without these numbers the board is possible for both.
        let mut board = after_october();
        assert_eq!(november(calls, &october(), &board), ((0, 4), [542, 0, 2, 300]));
        assert_eq!(november(calls, &october_elder(), &board), ((7, 0), [9; 4]));
        board[TAKEN..][..5].fill(0);
        board[SHORT..].fill(0);
        assert_eq!(november(calls, &october(), &board), ((0, 4), [542, 0, 2, 300]));
        assert_eq!(november(calls, &october_elder(), &board), ((0, 1), [542, 0, 2, 300]));

        let board = after_october_alone();
        assert_eq!(november(calls, &october(), &board), ((0, 4), [300, 0, 2, 300]));
        assert_eq!(november(calls, &october_elder(), &board), ((0, 1), [300, 0, 2, 300]));
    });
}
