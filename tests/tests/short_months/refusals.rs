//! What is turned down before a right is looked at, and rights that are not there.

use crate::{ask, small_river, ALL_MONTHS};
use river_tests::calls::by_each;
use river_tests::engine::board::{BOARD, NEXT_MONTH, SHORT};
use river_tests::engine::records::Basin;
use river_tests::examples::{october, OCTOBER_RUNOFF};
use river_tests::generate::largest;

/// Numbers that no right of a basin can have, some of them with the low bits of one that is
/// there.
const FAR: [usize; 7] = [256, 257, 512, 65_536, 1 << 32, (1 << 32) + 1, usize::MAX];

#[test]
fn rights_that_are_not_there() {
    by_each(|calls| {
        for (basin, rights) in [(Basin { rights: vec![], ..october() }, 0), (small_river(), 3)] {
            let (file, mut board) = (basin.encode(), vec![0; BOARD]);
            board[SHORT..SHORT + rights].fill(ALL_MONTHS);
            (0..rights).for_each(|right| {
                assert_eq!(ask(calls, &file, &board, right), [0, 0, 12]);
            });
            for right in (rights..256).chain(FAR) {
                assert_eq!(ask(calls, &file, &board, right), [0, 0, 0], "right {right}");
            }
        }
        let (file, mut board) = (largest().encode(), vec![0; BOARD]);
        board[SHORT..].fill(ALL_MONTHS);
        assert_eq!(ask(calls, &file, &board, 255), [0, 0, 12]);
        FAR.iter().for_each(|&right| assert_eq!(ask(calls, &file, &board, right), [0, 0, 0]));
    });
}

/// October's file with a fault in each body, and a board with a wrong number, put right one by
/// one. Of a right that is not there every refusal is told as well.
#[test]
fn refusals_come_first() {
    let mut basin = october();
    let sound = basin.encode();
    let mut impossible = vec![0; BOARD];
    impossible[SHORT + 2] = ALL_MONTHS;
    let possible = impossible.clone();
    impossible[NEXT_MONTH] = 12;
    basin.stations[2].zeros[1] = 1;
    basin.reservoirs[0].start = 5001;
    basin.patterns[0][2] = 21;
    basin.rights[3].limit = 1;
    let bad_station = basin.encode();
    basin.stations[2].zeros[1] = 0;
    let bad_reservoir = basin.encode();
    basin.reservoirs[0].start = 1000;
    let bad_pattern = basin.encode();
    basin.patterns[0][2] = 20;
    let bad_right = basin.encode();
    by_each(|calls| {
        for right in [2, 4, 5, 255, 256, 1 << 32, usize::MAX] {
            let ask = |file: &[u8], board: &[u64]| ask(calls, file, board, right);
            for board in [&impossible[1..], &impossible, &possible] {
                assert_eq!(ask(&[], board), [1, 0, 0], "right {right}");
                assert_eq!(ask(&bad_station[..31], board), [1, 0, 0], "right {right}");
                assert_eq!(ask(&bad_station, board), [2, 2, 0], "right {right}");
                assert_eq!(ask(&bad_reservoir, board), [3, 0, 0], "right {right}");
                assert_eq!(ask(&bad_pattern, board), [4, 0, 0], "right {right}");
                assert_eq!(ask(&bad_right, board), [5, 3, 0], "right {right}");
            }
            for length in [0, 1, 969, 970, 971, 1225, 1227] {
                let mut board = impossible.clone();
                board.resize(length, 0);
                assert_eq!(ask(&sound, &board), [6, 0, 0], "right {right}, {length} numbers");
            }
            assert_eq!(ask(&sound, &impossible), [7, 0, 0], "right {right}");
            let months = if right == 2 { 12 } else { 0 };
            assert_eq!(ask(&sound, &possible), [0, 0, months], "right {right}");
        }
    });
}

/// Of the words alone: a bit above September's, and a word of a right that October lacks.
#[test]
fn words_that_are_not_possible() {
    let file = october().encode();
    by_each(|calls| {
        let refused = |place: usize, word: u64| {
            let mut board = vec![0; BOARD];
            board[place] = word;
            let (before, mut report) = (board.clone(), [9; 28]);
            assert_eq!(ask(calls, &file, &board, 0), [7, 0, 0], "{word} at {place}");
            assert_eq!((calls.stock)(&file, &board), [7, 0, 0, 0], "{word} at {place}");
            let month = (calls.month)(&file, &OCTOBER_RUNOFF, &mut board, &mut report);
            assert_eq!((month, report), ((7, 0), [9; 28]), "{word} at {place}");
            assert!(board == before, "{word} at {place}");
        };
        for right in 0..5 {
            (12..64).for_each(|bit| refused(970 + right, 1 << bit));
            for word in [4096, 4097, 8191, u64::MAX] {
                refused(970 + right, word);
            }
        }
        for right in 5..256 {
            for word in [1, 2048, 4095, 4096] {
                refused(970 + right, word);
            }
        }
    });
}
