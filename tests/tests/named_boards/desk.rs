//! A store and the calls that are made on it by an engine. Places are written out from 02.

use river_tests::calls::Calls;
use river_tests::engine::store::Name;

pub const STORE: usize = 39_264;

/// Where the boards begin, behind the names.
pub const BOARDS: [usize; 4] = [32, 9840, 19_648, 29_456];

pub struct Desk {
    pub calls: &'static Calls,
    pub store: Vec<u8>,
}

/// What stands on a board that a call is lent, where it does not matter.
const BEFORE: u64 = 77;

impl Desk {
    /// A store with these names, and boards of any bytes.
    pub fn of(calls: &'static Calls, names: [Name; 4]) -> Desk {
        let mut store: Vec<u8> = (0..STORE).map(|place| (place * 29 / 7 + 3) as u8).collect();
        store[..32].copy_from_slice(&names.concat());
        Desk { calls, store }
    }

    /// The numbers of an entry, worked out byte by byte.
    pub fn numbers(&self, entry: usize) -> Vec<u64> {
        let number =
            |bytes: &[u8]| bytes.iter().rev().fold(0, |sum, &byte| sum * 256 + byte as u64);
        self.store[BOARDS[entry]..][..9808].chunks(8).map(number).collect()
    }

    /// Makes a call; the store is then to be this one.
    fn leaves(&mut self, expected: &[u8], call: impl FnOnce(&mut [u8])) {
        call(&mut self.store);
        let differs = (0..STORE).find(|&place| self.store.get(place) != expected.get(place));
        assert!(self.store == expected, "the store differs at {differs:?}");
    }

    /// A save that is accepted, into an entry.
    #[track_caller]
    pub fn saves(&mut self, name: &Name, board: &[u64], entry: usize) {
        let mut expected = self.store.clone();
        expected[8 * entry..8 * entry + 8].copy_from_slice(name);
        expected[BOARDS[entry]..][..9808].copy_from_slice(&bytes_of(board));
        let (calls, lent) = (self.calls, board.to_vec());
        self.leaves(&expected, |store| assert_eq!((calls.save)(store, name, &lent), (0, 0)));
        assert!(lent == board, "a save writes on no board");
    }

    /// A recall that is accepted; the numbers that it puts on the board.
    #[track_caller]
    pub fn recalled(&mut self, name: &Name) -> Vec<u64> {
        let (calls, mut board) = (self.calls, vec![BEFORE; 1226]);
        let expected = self.store.clone();
        self.leaves(&expected, |store| {
            assert_eq!((calls.recall)(store, name, &mut board), (0, 0));
        });
        board
    }

    /// A drop that is accepted, of an entry.
    #[track_caller]
    pub fn drops(&mut self, name: &Name, entry: usize) {
        let mut expected = self.store.clone();
        expected[8 * entry..8 * entry + 8].fill(0);
        let calls = self.calls;
        self.leaves(&expected, |store| assert_eq!((calls.drop_name)(store, name), (0, 0)));
    }

    /// Recall and drop are refused, as the name is not there.
    #[track_caller]
    pub fn refuses_to_find(&mut self, name: &[u8]) {
        self.refuses_recall(name, 1226, 11);
        self.refuses_drop(name, 11);
    }

    /// A save is refused with one number, recall and drop with another.
    #[track_caller]
    pub fn refuses_all(&mut self, name: &[u8], save: u64, others: u64) {
        self.refuses_save(name, 1226, save);
        self.refuses_recall(name, 1226, others);
        self.refuses_drop(name, others);
    }

    #[track_caller]
    pub fn refuses_save(&mut self, name: &[u8], length: usize, number: u64) {
        let (calls, before) = (self.calls, self.store.clone());
        self.leaves(&before, |store| {
            assert_eq!((calls.save)(store, name, &vec![BEFORE; length]), (number, 0));
        });
    }

    #[track_caller]
    pub fn refuses_recall(&mut self, name: &[u8], length: usize, number: u64) {
        let (calls, before) = (self.calls, self.store.clone());
        let mut board = vec![BEFORE; length];
        self.leaves(&before, |store| {
            assert_eq!((calls.recall)(store, name, &mut board), (number, 0));
        });
        assert!(board.iter().all(|&number| number == BEFORE), "a refused recall writes nothing");
    }

    #[track_caller]
    pub fn refuses_drop(&mut self, name: &[u8], number: u64) {
        let (calls, before) = (self.calls, self.store.clone());
        self.leaves(&before, |store| assert_eq!((calls.drop_name)(store, name), (number, 0)));
    }
}

/// A board in which every number is another, and all 64 bits are used.
pub fn numbers(seed: u64) -> Vec<u64> {
    (1..=1226).map(|place: u64| (1000 * place + seed).wrapping_mul(0x9e37_79b9_7f4a_7c15)).collect()
}

/// The bytes of a board, the least of each number first.
pub fn bytes_of(board: &[u64]) -> Vec<u8> {
    let bytes = |&number: &u64| (0..8).map(move |byte| (number >> (8 * byte)) as u8);
    board.iter().flat_map(bytes).collect()
}
