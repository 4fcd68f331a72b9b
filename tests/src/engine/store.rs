//! Named boards: a store of four, lent as bytes (02, No. 7).
//!
//! Four names stand first, then four boards in the same order. No basin is taken, and so no
//! board is judged: whatever numbers are saved are recalled.

use super::board::{BOARD, NEXT_MONTH, NOT_POSSIBLE, SHORT, WRONG_LENGTH};
use super::check::Refusal;
use super::slip::{Slip, Telling};
use super::Answer;
use std::ops::Range;

pub const ENTRIES: usize = 4;
pub const NAME_BYTES: usize = 8;
pub const BOARD_BYTES: usize = 8 * BOARD;
pub const STORE_BYTES: usize = ENTRIES * (NAME_BYTES + BOARD_BYTES);

/// A name of zeros, or one to be recalled or dropped that is not there.
pub const BAD_NAME: Refusal = Refusal { number: 11, place: 0 };
/// A new name that finds no empty entry.
pub const STORE_FULL: Refusal = Refusal { number: 12, place: 0 };

pub type Name = [u8; NAME_BYTES];

/// What marks an empty entry.
pub const NO_NAME: Name = [0; NAME_BYTES];

/// Where an entry's name stands.
pub const fn name_at(entry: usize) -> Range<usize> {
    NAME_BYTES * entry..NAME_BYTES * (entry + 1)
}

/// Where its board stands, behind all names.
pub const fn board_at(entry: usize) -> Range<usize> {
    let start = NAME_BYTES * ENTRIES + BOARD_BYTES * entry;
    start..start + BOARD_BYTES
}

/// Puts a board under a name, in place of the one that is there or in the earliest empty
/// entry.
pub fn save<T: Telling>(telling: &T, store: &mut [u8], name: &[u8], board: &[u64]) -> Answer {
    let told = judge(telling, store, name, board.len(), Slip::ZeroNameSaved)
        .and_then(|name| Ok((name, entry_to_save(telling, store, &name, board)?)));
    let (name, entry) = match told {
        Ok(found) => found,
        Err(refusal) => return refuse_to_save(telling, store, name, refusal),
    };
    store[places(telling, name_at(entry), entry)].copy_from_slice(&name);
    put_board(telling, &mut store[places(telling, board_at(entry), entry)], board);
    accept(telling, entry)
}

/// Puts the saved numbers on a board.
pub fn recall<T: Telling>(telling: &T, store: &[u8], name: &[u8], board: &mut [u64]) -> Answer {
    let found = judge(telling, store, name, board.len(), Slip::ZeroNameFound)
        .and_then(|name| entry_of(telling, store, &name).ok_or(not_there(telling)));
    match found {
        Ok(entry) => {
            get_board(telling, &store[places(telling, board_at(entry), entry)], board);
            accept(telling, entry)
        }
        Err(refusal) => {
            if telling.slips(Slip::RefusedRecallClears) {
                board.fill(0);
            }
            refusal.answer()
        }
    }
}

/// Zeroes the name alone; the board's bytes stay.
pub fn drop_name<T: Telling>(telling: &T, store: &mut [u8], name: &[u8]) -> Answer {
    let found = judge(telling, store, name, BOARD, Slip::ZeroNameFound)
        .and_then(|name| Ok((name, entry_of(telling, store, &name).ok_or(not_there(telling))?)));
    match found {
        Ok((name, entry)) => {
            store[places(telling, name_at(entry), entry)].fill(0);
            drop_more(telling, store, &name, entry);
            accept(telling, entry)
        }
        Err(BAD_NAME) if telling.slips(Slip::DropOfMissingAccepted) && name != NO_NAME => (0, 0),
        Err(refusal) => refusal.answer(),
    }
}

fn accept<T: Telling>(telling: &T, entry: usize) -> Answer {
    (0, if telling.slips(Slip::EntryAnswered) { entry as u64 } else { 0 })
}

/// The lengths, refusal 6; then a name of zeros, refusal 11. Where `taken` slips it is a name
/// like others.
fn judge<T: Telling>(
    telling: &T,
    store: &[u8],
    name: &[u8],
    board: usize,
    taken: Slip,
) -> Result<Name, Refusal> {
    if telling.slips(Slip::ZeroNameBeforeLengths) && name == NO_NAME {
        return Err(BAD_NAME);
    }
    let fits = |length: usize, wanted: usize, longer: Slip| {
        length == wanted || (telling.slips(longer) && length > wanted)
    };
    if !fits(store.len(), STORE_BYTES, Slip::LongerStoreAccepted)
        || !fits(board, BOARD, Slip::LongerBoardStored)
    {
        return Err(WRONG_LENGTH);
    }
    let name = whole_name(telling, name).ok_or(WRONG_LENGTH)?;
    // Under this slip a save tells it later.
    let later = taken == Slip::ZeroNameSaved && telling.slips(Slip::FullBeforeZeroName);
    if name == NO_NAME && !telling.slips(taken) && !later {
        return Err(BAD_NAME);
    }
    Ok(name)
}

fn whole_name<T: Telling>(telling: &T, name: &[u8]) -> Option<Name> {
    if telling.slips(Slip::ShorterNamePadded) && name.len() < NAME_BYTES {
        let mut padded = NO_NAME;
        padded[..name.len()].copy_from_slice(name);
        return Some(padded);
    }
    if telling.slips(Slip::LongerNameCut) && name.len() > NAME_BYTES {
        return name.first_chunk().copied();
    }
    name.try_into().ok()
}

/// The earliest entry of a name.
fn entry_of<T: Telling>(telling: &T, store: &[u8], name: &Name) -> Option<usize> {
    let is = |&entry: &usize| same(telling, &name_in(telling, store, entry), name);
    if telling.slips(Slip::LaterOfTwoNames) {
        return (0..ENTRIES).rfind(is);
    }
    if telling.slips(Slip::FifthName) {
        // The first number of the first board stands where a fifth name would.
        return (0..=ENTRIES).find(is).map(|entry| entry.min(ENTRIES - 1));
    }
    let entries = if telling.slips(Slip::ThreeEntries) { ENTRIES - 1 } else { ENTRIES };
    (0..entries).find(is)
}

fn name_in<T: Telling>(telling: &T, store: &[u8], entry: usize) -> Name {
    *store[places(telling, name_at(entry), entry)].first_chunk().unwrap()
}

fn same<T: Telling>(telling: &T, one: &Name, other: &Name) -> bool {
    if telling.slips(Slip::LastByteOfNameIgnored) {
        return one[..NAME_BYTES - 1] == other[..NAME_BYTES - 1];
    }
    if telling.slips(Slip::NameUpToZeroByte) {
        let text = |name: &Name| name.map(|byte| byte as char).into_iter().collect::<String>();
        return text(one).split('\0').next() == text(other).split('\0').next();
    }
    if telling.slips(Slip::NamesWithoutCase) {
        return one.eq_ignore_ascii_case(other);
    }
    one == other
}

/// The entry of the name, or the earliest empty one; refusal 12.
fn entry_to_save<T: Telling>(
    telling: &T,
    store: &[u8],
    name: &Name,
    board: &[u64],
) -> Result<usize, Refusal> {
    if telling.slips(Slip::SaveJudgesMonth) && board[NEXT_MONTH] > 11 {
        return Err(NOT_POSSIBLE);
    }
    if telling.slips(Slip::SavedInFirstEntry) {
        return Ok(0);
    }
    let there = entry_of(telling, store, name);
    if there.is_some() && telling.slips(Slip::NameThereRefused) {
        return Err(BAD_NAME);
    }
    let entry = match (there, empty_entry(telling, store)) {
        (Some(there), Some(empty)) if telling.slips(Slip::EmptyEntryBeforeName) => there.min(empty),
        (Some(entry), _) | (None, Some(entry)) => entry,
        (None, None) if telling.slips(Slip::FullStoreTaken) => ENTRIES - 1,
        (None, None) => return Err(STORE_FULL),
    };
    if *name == NO_NAME && telling.slips(Slip::FullBeforeZeroName) {
        return Err(BAD_NAME);
    }
    Ok(entry)
}

fn empty_entry<T: Telling>(telling: &T, store: &[u8]) -> Option<usize> {
    let empty = |&entry: &usize| {
        let name = name_in(telling, store, entry);
        name == NO_NAME || (telling.slips(Slip::EmptyByFirstByte) && name[0] == 0)
    };
    if telling.slips(Slip::LatestEmptyEntry) {
        (0..ENTRIES).rfind(empty)
    } else {
        (0..ENTRIES).find(empty)
    }
}

fn put_board<T: Telling>(telling: &T, bytes: &mut [u8], board: &[u64]) {
    for (place, (bytes, &number)) in bytes.as_chunks_mut().0.iter_mut().zip(board).enumerate() {
        if telling.slips(Slip::LastNumberNotSaved) && place == BOARD - 1
            || telling.slips(Slip::WordsNotSaved) && place >= SHORT
        {
            continue;
        }
        *bytes = number.to_le_bytes();
        if telling.slips(Slip::BigEndian) {
            bytes.reverse();
        }
    }
}

fn get_board<T: Telling>(telling: &T, bytes: &[u8], board: &mut [u64]) {
    for (number, &bytes) in board.iter_mut().zip(bytes.as_chunks().0) {
        *number = u64::from_le_bytes(bytes);
        if telling.slips(Slip::BigEndian) {
            *number = number.swap_bytes();
        }
        if telling.slips(Slip::LowHalfRecalled) {
            *number &= u32::MAX as u64;
        }
    }
}

fn not_there<T: Telling>(telling: &T) -> Refusal {
    if telling.slips(Slip::MissingToldAsFull) {
        STORE_FULL
    } else {
        BAD_NAME
    }
}

// ---- only for slips ----

/// Where each name stands before its own board.
fn places<T: Telling>(telling: &T, range: Range<usize>, entry: usize) -> Range<usize> {
    if !telling.slips(Slip::NameBeforeItsBoard) {
        return range;
    }
    let start = (NAME_BYTES + BOARD_BYTES) * entry;
    match range.len() {
        NAME_BYTES => start..start + NAME_BYTES,
        _ => start + NAME_BYTES..start + NAME_BYTES + BOARD_BYTES,
    }
}

fn refuse_to_save<T: Telling>(
    telling: &T,
    store: &mut [u8],
    name: &[u8],
    refusal: Refusal,
) -> Answer {
    if telling.slips(Slip::FullStoreRenamed) && refusal == STORE_FULL {
        store[name_at(ENTRIES - 1)].copy_from_slice(name);
    }
    refusal.answer()
}

/// What a drop leaves as it is.
fn drop_more<T: Telling>(telling: &T, store: &mut [u8], name: &Name, entry: usize) {
    if telling.slips(Slip::DropClearsBoard) {
        store[board_at(entry)].fill(0);
    }
    if telling.slips(Slip::DropOfAll) {
        while let Some(entry) = entry_of(telling, store, name).filter(|_| *name != NO_NAME) {
            store[name_at(entry)].fill(0);
        }
    }
    if telling.slips(Slip::DropMovesUp) {
        store.copy_within(name_at(entry).end..name_at(ENTRIES - 1).end, name_at(entry).start);
        store[name_at(ENTRIES - 1)].fill(0);
        store.copy_within(board_at(entry).end..board_at(ENTRIES - 1).end, board_at(entry).start);
    }
}
