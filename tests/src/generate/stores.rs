//! Stores of boards, and names that meet in them.

use super::Rng;
use crate::engine::board::BOARD;
use crate::engine::store::{board_at, name_at, Name, ENTRIES, NO_NAME, STORE_BYTES};

/// Few, so that they meet, and each like another but for one byte: the last, one after a zero
/// byte, one bit, the first.
pub const NAMES: [Name; 8] = [
    *b"MARCH\0\0\0",
    *b"MARCH\0\0\x01",
    *b"MARCH\0DR",
    *b"mARCH\0\0\0",
    *b"\0ARCH\0\0\0",
    *b"DRY SPRI",
    [0, 0, 0, 0, 0, 0, 0, 1],
    [255; 8],
];

/// One of these, now and then zeros.
pub fn any_name(rng: &mut Rng) -> Name {
    if rng.chance(10) {
        NO_NAME
    } else {
        *rng.pick(&NAMES)
    }
}

/// A board of any numbers, small and large ones among them.
pub fn any_numbers(rng: &mut Rng) -> Vec<u64> {
    let shift = *rng.pick(&[0, 0, 8, 40, 60]);
    (0..BOARD).map(|_| rng.word() >> shift).collect()
}

/// Any bytes, under names that are often there twice; some entries are empty.
pub fn any_store(rng: &mut Rng) -> Vec<u8> {
    let mut store: Vec<u8> = (0..STORE_BYTES / 8).flat_map(|_| rng.word().to_le_bytes()).collect();
    let (few, empty) = (rng.below(NAMES.len()) + 1, *rng.pick(&[0, 25, 60, 100]));
    for entry in 0..ENTRIES {
        let name = if rng.chance(empty) { NO_NAME } else { NAMES[rng.below(few)] };
        store[name_at(entry)].copy_from_slice(&name);
    }
    // What stands behind the last name is a number, whatever it looks like.
    if rng.chance(20) {
        let number = board_at(0).start..board_at(0).start + NO_NAME.len();
        store[number].copy_from_slice(&any_name(rng));
    }
    store
}
