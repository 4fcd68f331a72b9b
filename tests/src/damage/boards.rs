//! Boards that are not possible, each for one clause, and extreme ones that are.
//! Places and limits are written out from 01 and 02, not taken from the engine.

use super::edits::{any_place, of_kind};
use crate::engine::records::*;
use crate::generate::Rng;

/// A place of the board and a number that cannot stand there; `None` if the basin
/// has no such place.
pub type Impossible = fn(&Basin, &mut Rng) -> Option<(usize, u64)>;

/// Puts an impossible number on a possible board.
pub fn impossible_board(
    edit: Impossible,
    basin: &Basin,
    board: &mut [u64],
    rng: &mut Rng,
) -> Option<()> {
    let (place, number) = edit(basin, rng)?;
    board[place] = number;
    Some(())
}

const M: usize = 0;
const STORAGES: usize = 1;
const MARKS: usize = 9;
const TAKEN: usize = 10;
const SHORT: usize = 970;

fn due(row: usize, k: usize) -> usize {
    266 + 11 * row + (k - 1)
}

fn due_limit(k: usize) -> u64 {
    (12 - k as u64) * 256_000_000_000
}

fn right_of_kind(basin: &Basin, rng: &mut Rng, kind: u8) -> Option<usize> {
    let fits = of_kind(kind);
    let fitting: Vec<usize> =
        (0..basin.rights.len()).filter(|&place| fits(&basin.rights[place])).collect();
    Some(fitting[any_place(rng, fitting.len())?])
}

/// A number that cannot be the word of a right that is there.
fn word(basin: &Basin, rng: &mut Rng, number: u64) -> Option<(usize, u64)> {
    Some((SHORT + any_place(rng, basin.rights.len())?, number))
}

/// The same of one that is not: any number but 0.
fn word_of_none(basin: &Basin, right: usize, number: u64) -> Option<(usize, u64)> {
    (right >= basin.rights.len() && right < 256).then_some((SHORT + right, number))
}

/// Every one is to be answered 7, 0.
pub const IMPOSSIBLE: &[(&str, Impossible)] = &[
    ("m = 12", |_, _| Some((M, 12))),
    ("m = 2^32", |_, _| Some((M, 1 << 32))),
    ("m = 2^64 - 1", |_, _| Some((M, u64::MAX))),
    ("storage one above capacity", |b, rng| {
        let place = any_place(rng, b.reservoirs.len())?;
        Some((STORAGES + place, b.reservoirs[place].capacity as u64 + 1))
    }),
    ("storage 2^32, its low half possible", |b, rng| {
        let place = any_place(rng, b.reservoirs.len())?;
        Some((STORAGES + place, 1 << 32))
    }),
    ("storage 2^64 - 1", |b, rng| {
        let place = any_place(rng, b.reservoirs.len())?;
        Some((STORAGES + place, u64::MAX))
    }),
    ("storage without a reservoir", |b, _| {
        (b.reservoirs.len() < 8).then_some((STORAGES + b.reservoirs.len(), 1))
    }),
    ("storage in place 8 without a reservoir", |b, _| (b.reservoirs.len() < 8).then_some((8, 1))),
    ("mark of the first reservoir that does not exist", |b, _| {
        Some((MARKS, 1 << b.reservoirs.len()))
    }),
    ("mark in bit 8", |_, _| Some((MARKS, 1 << 8))),
    ("mark in bit 63", |_, _| Some((MARKS, 1 << 63))),
    ("taken one above the limit", |b, rng| {
        let place = right_of_kind(b, rng, STORAGE)?;
        Some((TAKEN + place, b.rights[place].limit as u64 + 1))
    }),
    ("taken of a direct right", |b, rng| Some((TAKEN + right_of_kind(b, rng, DIRECT)?, 1))),
    ("taken of a project right", |b, rng| Some((TAKEN + right_of_kind(b, rng, PROJECT)?, 1))),
    ("taken of an instream right", |b, rng| Some((TAKEN + right_of_kind(b, rng, INSTREAM)?, 1))),
    ("taken without a right", |b, _| (b.rights.len() < 256).then_some((TAKEN + b.rights.len(), 1))),
    ("taken in place 265 without a right", |b, _| (b.rights.len() < 256).then_some((265, 1))),
    ("due one above its limit", |b, rng| {
        let k = rng.below(11) + 1;
        Some((due(rng.below(b.stations.len()), k), due_limit(k) + 1))
    }),
    ("due at 1 one above its limit", |b, rng| {
        Some((due(rng.below(b.stations.len()), 1), 2_816_000_000_001))
    }),
    ("due at 11 one above its limit", |b, rng| {
        Some((due(rng.below(b.stations.len()), 11), 256_000_000_001))
    }),
    ("due 2^64 - 1", |b, rng| {
        let k = rng.below(11) + 1;
        Some((due(rng.below(b.stations.len()), k), u64::MAX))
    }),
    ("due without a row", |b, _| (b.stations.len() < 64).then_some((due(b.stations.len(), 1), 1))),
    ("due in place 969 without a row", |b, _| (b.stations.len() < 64).then_some((969, 1))),
    ("short in bit 12", |b, rng| word(b, rng, 1 << 12)),
    ("short in bits 0 to 12", |b, rng| word(b, rng, (1 << 13) - 1)),
    ("short in bit 31", |b, rng| word(b, rng, 1 << 31)),
    ("short in bits 0 and 32", |b, rng| word(b, rng, (1 << 32) + 1)),
    ("short in bit 63", |b, rng| word(b, rng, 1 << 63)),
    ("short in all bits", |b, rng| word(b, rng, u64::MAX)),
    ("last right short in bit 12", |b, _| {
        (!b.rights.is_empty()).then_some((SHORT + b.rights.len() - 1, 1 << 12))
    }),
    ("short without a right", |b, _| word_of_none(b, b.rights.len(), 1)),
    ("short in September without a right", |b, rng| {
        let more = any_place(rng, 256 - b.rights.len())?;
        word_of_none(b, b.rights.len() + more, 1 << 11)
    }),
    ("short in place 1225 without a right", |b, _| word_of_none(b, 255, 1)),
];

/// Makes a possible board extreme, but still possible.
pub type Extreme = fn(&Basin, &mut [u64]);

pub const POSSIBLE: &[(&str, Extreme)] = &[
    ("m = 11", |_, board| board[M] = 11),
    ("all full", |b, board| {
        for (place, lake) in b.reservoirs.iter().enumerate() {
            board[STORAGES + place] = lake.capacity as u64;
        }
    }),
    ("all marked", |b, board| {
        board[MARKS] = (1 << b.reservoirs.len()) - 1;
    }),
    ("all taken", |b, board| {
        for (place, right) in b.rights.iter().enumerate() {
            board[TAKEN + place] = right.limit as u64;
        }
    }),
    ("all dues at their limits", |b, board| {
        for row in 0..b.stations.len() {
            for k in 1..=11 {
                board[due(row, k)] = due_limit(k);
            }
        }
    }),
    ("all short in every month", |b, board| board[SHORT..SHORT + b.rights.len()].fill(0xfff)),
    ("short in no month", |_, board| board[SHORT..].fill(0)),
    ("short in the months still to be run", |b, board| {
        let ahead = 0xfff & !((1 << board[M]) - 1);
        board[SHORT..SHORT + b.rights.len()].fill(ahead);
    }),
];
