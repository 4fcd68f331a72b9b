//! What is turned down: lengths, then names of zeros and names that are not there, then a full
//! store. A refused call changes no byte of the store and no number of the board.

use crate::desk::{numbers, Desk, STORE};
use crate::{A, B, C, D, E, NONE};
use river_tests::calls::{by_each, Calls};
use river_tests::engine::store::Name;

const FULL: [Name; 4] = [A, B, C, D];
const ONE_EMPTY: [Name; 4] = [A, B, NONE, D];

/// So many bytes of a store with these names, or zeros behind it.
fn cut(calls: &'static Calls, names: [Name; 4], bytes: usize) -> Desk {
    let mut desk = Desk::of(calls, names);
    desk.store.resize(bytes, 0);
    desk
}

/// One that is there, one that is not, and zeros.
const ASKED: [Name; 3] = [A, E, NONE];

#[test]
fn a_store_of_another_length() {
    by_each(|calls| {
        for names in [FULL, ONE_EMPTY, [NONE; 4]] {
            for bytes in [0, 1, 8, 32, 9840, 31_072, STORE - 8, STORE - 1, STORE + 1, 2 * STORE] {
                for name in ASKED {
                    cut(calls, names, bytes).refuses_all(&name, 6, 6);
                }
            }
        }
    });
}

#[test]
fn a_name_of_another_length() {
    by_each(|calls| {
        for names in [FULL, ONE_EMPTY, [NONE; 4]] {
            for length in [0, 1, 4, 7, 9, 16, 100] {
                for name in ASKED {
                    let mut name = name.to_vec();
                    name.resize(length, 0);
                    Desk::of(calls, names).refuses_all(&name, 6, 6);
                }
            }
        }
    });
}

#[test]
fn a_board_of_another_length() {
    by_each(|calls| {
        for names in [FULL, ONE_EMPTY, [NONE; 4]] {
            for length in [0, 1, 970, 1225, 1227, 2452] {
                for name in ASKED {
                    let mut desk = Desk::of(calls, names);
                    desk.refuses_save(&name, length, 6);
                    desk.refuses_recall(&name, length, 6);
                }
            }
        }
    });
}

/// No list at all, or one of three that is as it should be.
#[test]
fn several_lengths_at_once() {
    by_each(|calls| {
        for (store, name, board) in
            [(0, 0, 0), (STORE, 0, 0), (0, 8, 0), (0, 0, 1226), (STORE + 1, 9, 1227)]
        {
            let mut desk = cut(calls, FULL, store);
            desk.refuses_save(&vec![65; name], board, 6);
            desk.refuses_recall(&vec![65; name], board, 6);
            desk.refuses_drop(&vec![65; name], 6);
        }
    });
}

/// Zeros are no name, where an entry is empty and where none is.
#[test]
fn a_name_of_zeros() {
    by_each(|calls| {
        for names in [FULL, ONE_EMPTY, [NONE; 4], [NONE, A, A, A]] {
            Desk::of(calls, names).refuses_all(&NONE, 11, 11);
        }
    });
}

#[test]
fn a_name_that_is_not_there() {
    by_each(|calls| {
        Desk::of(calls, FULL).refuses_all(&E, 12, 11);
        let mut desk = Desk::of(calls, ONE_EMPTY);
        for name in [E, C] {
            desk.refuses_to_find(&name);
        }
        Desk::of(calls, [NONE; 4]).refuses_to_find(&A);
    });
}

/// One call put right bit by bit: every length, then the name, then the store.
#[test]
fn refusals_in_their_order() {
    by_each(|calls| {
        for bytes in [STORE - 1, STORE + 1] {
            cut(calls, FULL, bytes).refuses_save(&NONE[1..], 1225, 6);
            cut(calls, FULL, bytes).refuses_save(&NONE, 1226, 6);
        }
        let mut desk = Desk::of(calls, FULL);
        desk.refuses_save(&NONE[1..], 1225, 6);
        desk.refuses_save(&NONE, 1225, 6);
        desk.refuses_save(&E, 1225, 6);
        desk.refuses_save(&NONE, 1226, 11);
        desk.refuses_save(&E, 1226, 12);
        desk.drops(&C, 2);
        desk.refuses_save(&NONE, 1226, 11);
        desk.saves(&E, &numbers(1), 2);
        desk.saves(&A, &numbers(2), 0);
        desk.refuses_recall(&NONE[1..], 1225, 6);
        desk.refuses_recall(&NONE, 1227, 6);
        desk.refuses_recall(&C, 1227, 6);
        desk.refuses_recall(&NONE, 1226, 11);
        desk.refuses_recall(&C, 1226, 11);
        assert_eq!(desk.recalled(&E), numbers(1));
        desk.refuses_drop(&NONE[1..], 6);
        desk.refuses_drop(&NONE, 11);
        desk.refuses_drop(&C, 11);
        desk.drops(&E, 2);
    });
}
