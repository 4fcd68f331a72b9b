//! Boards saved under names, worked out by hand and asked of every engine (02, No. 7): entries
//! and names here, what is turned down in `refusals`, what the example in C prints in
//! `printed`. After every call each byte of the store is compared.

mod desk;
mod printed;
mod refusals;

use desk::{bytes_of, numbers, Desk, BOARDS};
use river_tests::calls::by_each;
use river_tests::engine::store::Name;

const NONE: Name = [0; 8];
const A: Name = *b"A\0\0\0\0\0\0\0";
const B: Name = *b"B\0\0\0\0\0\0\0";
const C: Name = *b"C\0\0\0\0\0\0\0";
const D: Name = *b"D\0\0\0\0\0\0\0";
const E: Name = *b"E\0\0\0\0\0\0\0";
const MARCH: Name = *b"MARCH\0\0\0";

#[test]
fn the_least_byte_of_a_number_stands_first() {
    by_each(|calls| {
        let mut desk = Desk::of(calls, [NONE; 4]);
        let mut board = [0; 1226];
        board[0] = 0x0807_0605_0403_0201;
        board[1] = u64::MAX;
        board[2] = 1 << 63;
        board[1225] = 0x1122_3344_5566_7788;
        desk.saves(&MARCH, &board, 0);
        assert_eq!(&desk.store[..8], b"MARCH\0\0\0");
        assert_eq!(desk.store[32..40], [1, 2, 3, 4, 5, 6, 7, 8]);
        assert_eq!(desk.store[40..48], [255; 8]);
        assert_eq!(desk.store[48..56], [0, 0, 0, 0, 0, 0, 0, 128]);
        assert!(desk.store[56..9832].iter().all(|&byte| byte == 0));
        assert_eq!(desk.store[9832..9840], [0x88, 0x77, 0x66, 0x55, 0x44, 0x33, 0x22, 0x11]);
        assert_eq!(desk.recalled(&MARCH), board);
    });
}

/// Every entry's board, to its last number; none is judged, so that any 64 bits are recalled.
#[test]
fn any_numbers_are_recalled() {
    by_each(|calls| {
        let mut desk = Desk::of(calls, [NONE; 4]);
        for (entry, name) in [A, B, C, D].iter().enumerate() {
            desk.saves(name, &numbers(entry as u64), entry);
        }
        for (seed, name) in (0..).zip([A, B, C, D]) {
            assert_eq!(desk.recalled(&name), numbers(seed));
        }
        for number in [0, 1, 12, 1 << 31, 1 << 32, 1 << 63, u64::MAX] {
            desk.saves(&C, &[number; 1226], 2);
            assert_eq!(desk.recalled(&C), [number; 1226]);
        }
    });
}

/// Whatever bytes were there before, as those of a store that was never cleared.
#[test]
fn a_store_of_any_bytes_is_one() {
    by_each(|calls| {
        for byte in [1, 127, 128, 255] {
            let mut desk = Desk { calls, store: vec![byte; 39_264] };
            let name = [byte; 8];
            // All four entries have this name, and their numbers all the same bytes.
            assert_eq!(desk.recalled(&name), [u64::from_le_bytes(name); 1226]);
            desk.refuses_all(&A, 12, 11);
            desk.saves(&name, &numbers(1), 0);
            desk.drops(&name, 0);
            desk.saves(&A, &numbers(2), 0);
            for entry in 1..4 {
                desk.drops(&name, entry);
            }
            desk.refuses_all(&NONE, 11, 11);
            desk.refuses_to_find(&name);
        }
    });
}

#[test]
fn a_new_name_takes_the_earliest_empty_entry() {
    by_each(|calls| {
        let mut desk = Desk::of(calls, [NONE; 4]);
        for (entry, name) in [A, B, C, D].iter().enumerate() {
            desk.refuses_to_find(name);
            desk.saves(name, &numbers(entry as u64), entry);
        }
        desk.refuses_all(&E, 12, 11);
        // Of two that are empty the earlier, whichever was dropped first.
        desk.drops(&D, 3);
        desk.drops(&B, 1);
        desk.saves(&E, &numbers(5), 1);
        assert_eq!(desk.recalled(&E), numbers(5));
        desk.refuses_to_find(&B);
        desk.saves(&B, &numbers(6), 3);
        desk.refuses_all(&D, 12, 11);
        for (name, seed) in [(A, 0), (E, 5), (C, 2), (B, 6)] {
            assert_eq!(desk.recalled(&name), numbers(seed));
        }
    });
}

/// A dropped board is not recalled, though its bytes are all there; the next save under a
/// name that finds this entry overwrites them.
#[test]
fn a_drop_zeroes_the_name_alone() {
    by_each(|calls| {
        let mut desk = Desk::of(calls, [A, B, C, D]);
        desk.saves(&C, &numbers(3), 2);
        desk.drops(&C, 2);
        assert_eq!(desk.store[BOARDS[2]..][..9808], bytes_of(&numbers(3)));
        desk.refuses_to_find(&C);
        desk.saves(&C, &numbers(4), 2);
        assert_eq!(desk.recalled(&C), numbers(4));
        desk.drops(&C, 2);
        desk.saves(&E, &numbers(5), 2);
        desk.refuses_to_find(&C);
    });
}

/// Stores with every choice of two names and none in each of the four entries, one after the
/// other asked for all three calls by a name that may be there and one that is not.
#[test]
fn every_store_of_two_names() {
    let (mut twice, mut full) = (0, 0);
    for choice in 0..81 {
        let names = [1, 3, 9, 27].map(|part| [NONE, A, B][choice / part % 3]);
        let places = |name: Name| (0..4).filter(move |&entry| names[entry] == name);
        twice += (places(A).count() > 1) as usize;
        full += places(NONE).next().is_none() as usize;
        by_each(|calls| {
            let desk = || Desk::of(calls, names);
            for name in [A, B, C] {
                match places(name).next() {
                    Some(entry) => {
                        assert_eq!(desk().recalled(&name), desk().numbers(entry));
                        desk().saves(&name, &numbers(9), entry);
                        desk().drops(&name, entry);
                    }
                    None => {
                        desk().refuses_to_find(&name);
                        match places(NONE).next() {
                            Some(entry) => desk().saves(&name, &numbers(9), entry),
                            None => desk().refuses_all(&name, 12, 11),
                        }
                    }
                }
            }
            desk().refuses_all(&NONE, 11, 11);
        });
    }
    assert_eq!((twice, full), (33, 16));
}

/// Four entries of one name are dropped one by one, each time the earliest; meanwhile the next
/// one is meant.
#[test]
fn a_name_that_stands_four_times() {
    by_each(|calls| {
        let mut desk = Desk::of(calls, [MARCH; 4]);
        for entry in 0..4 {
            assert_eq!(desk.recalled(&MARCH), desk.numbers(entry));
            desk.saves(&MARCH, &numbers(entry as u64), entry);
            assert_eq!(desk.recalled(&MARCH), numbers(entry as u64));
            desk.drops(&MARCH, entry);
        }
        desk.refuses_to_find(&MARCH);
        // A name that is there is replaced, however many entries before it are empty.
        desk.saves(&A, &numbers(1), 0);
        desk.saves(&B, &numbers(2), 1);
        desk.saves(&C, &numbers(3), 2);
        desk.drops(&A, 0);
        desk.drops(&B, 1);
        desk.saves(&C, &numbers(4), 2);
    });
}

/// A store has four names: what stands behind the last is a number, whatever it looks like.
#[test]
fn numbers_are_no_names() {
    by_each(|calls| {
        let looks_like_a_name = [u64::from_le_bytes(MARCH); 1226];
        let mut desk = Desk::of(calls, [NONE; 4]);
        for (entry, name) in [A, B, C, D].iter().enumerate() {
            desk.saves(name, &looks_like_a_name, entry);
            desk.refuses_to_find(&MARCH);
        }
        desk.refuses_all(&MARCH, 12, 11);
        // Nor does a board of zeros make an entry empty.
        [A, B, C, D]
            .iter()
            .enumerate()
            .for_each(|(entry, name)| desk.saves(name, &[0; 1226], entry));
        desk.refuses_all(&MARCH, 12, 11);
    });
}

/// Names are compared to the last bit, zero bytes among them.
#[test]
fn names_that_differ_in_one_bit() {
    by_each(|calls| {
        for name in [MARCH, [255; 8], *b"DRY YEAR", [0, 0, 0, 1, 0, 0, 0, 0]] {
            for bit in 0..64 {
                let mut other = name;
                other[bit / 8] ^= 1 << (bit % 8);
                if other == NONE {
                    continue;
                }
                Desk::of(calls, [other; 4]).refuses_all(&name, 12, 11);
                let mut desk = Desk::of(calls, [other, other, name, NONE]);
                assert_eq!(desk.recalled(&name), desk.numbers(2), "bit {bit}");
                desk.saves(&name, &numbers(1), 2);
                desk.drops(&name, 2);
                assert_eq!(desk.recalled(&other), desk.numbers(0), "bit {bit}");
            }
        }
    });
}

/// A name is eight bytes, of which all but one may be zeros, and no text that ends.
#[test]
fn names_with_zero_bytes_within() {
    by_each(|calls| {
        let one_byte = |place: usize| {
            let mut name = NONE;
            name[place] = 1;
            name
        };
        for first in 0..5 {
            let names = [0, 1, 2, 3].map(|entry| one_byte(first + entry));
            let mut desk = Desk::of(calls, [NONE; 4]);
            for (entry, name) in names.iter().enumerate() {
                desk.saves(name, &numbers(entry as u64), entry);
            }
            for place in 0..8 {
                match (first..first + 4).position(|there| there == place) {
                    Some(entry) => {
                        assert_eq!(desk.recalled(&one_byte(place)), numbers(entry as u64))
                    }
                    None => desk.refuses_all(&one_byte(place), 12, 11),
                }
            }
        }
        // The same up to a zero byte.
        let mut desk = Desk::of(calls, [*b"DRY\0ONE\0", *b"DRY\0TWO\0", *b"DRY\0\0\0\0\0", NONE]);
        for (entry, name) in [*b"DRY\0ONE\0", *b"DRY\0TWO\0", *b"DRY\0\0\0\0\0"].iter().enumerate()
        {
            assert_eq!(desk.recalled(name), desk.numbers(entry));
        }
        desk.refuses_to_find(b"DRY\0SIX\0");
    });
}
