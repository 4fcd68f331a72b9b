//! Calls on stores, asked of the right engine and of a wrong one, each on its own store.

use river_tests::engine::board::BOARD;
use river_tests::engine::slip::{Faithful, Telling};
use river_tests::engine::store::{drop_name, recall, save, STORE_BYTES};
use river_tests::engine::Answer;
use river_tests::generate::{any_name, any_numbers, any_store, Rng};

pub enum Kind {
    Save,
    Recall,
    Drop,
}

/// What a call is lent beside the store.
pub struct Ask {
    kind: Kind,
    name: Vec<u8>,
    board: Vec<u64>,
}

impl Ask {
    /// One in ten with a length that is wrong, one more or one less.
    fn any(rng: &mut Rng) -> Ask {
        let kind = match rng.below(5) {
            0 | 1 => Kind::Save,
            2 | 3 => Kind::Recall,
            _ => Kind::Drop,
        };
        let (mut name, mut board) = (any_name(rng).to_vec(), any_numbers(rng));
        match rng.below(40) {
            0 => _ = name.pop(),
            1 => name.push(0),
            2 => _ = board.pop(),
            3 => board.push(0),
            _ => (),
        }
        Ask { kind, name, board }
    }

    fn told(&self, telling: &impl Telling, store: &mut [u8], board: &mut [u64]) -> Answer {
        match self.kind {
            Kind::Save => save(telling, store, &self.name, board),
            Kind::Recall => recall(telling, store, &self.name, board),
            Kind::Drop => drop_name(telling, store, &self.name),
        }
    }
}

/// A store and the calls that are made on it, one after the other.
pub struct List {
    store: Vec<u8>,
    asks: Vec<Ask>,
}

/// Stores of any bytes, some of them of a wrong length.
pub fn lists() -> Vec<List> {
    let list = |seed: u64| {
        let rng = &mut Rng::new(seed);
        let mut store = any_store(rng);
        if seed % 10 == 9 {
            store.resize(*rng.pick(&[STORE_BYTES - 1, STORE_BYTES + 1]), 0);
        }
        List { store, asks: (0..12).map(|_| Ask::any(rng)).collect() }
    };
    (0..80).map(list).collect()
}

pub fn asked(lists: &[List]) -> usize {
    lists.iter().map(|list| list.asks.len()).sum()
}

/// How many calls are made until a wrong engine tells or leaves something else, and where.
pub fn find_in_stores(wrong: &impl Telling, lists: &[List]) -> Option<(usize, &'static str)> {
    let mut calls = 0;
    let mut boards = [[0; BOARD + 1]; 2];
    for List { store, asks } in lists {
        let mut stores = [store.clone(), store.clone()];
        for ask in asks {
            calls += 1;
            let [right, told] = &mut boards;
            let [right, told] = [right, told].map(|board| &mut board[..ask.board.len()]);
            right.copy_from_slice(&ask.board);
            told.copy_from_slice(&ask.board);
            let answer = ask.told(&Faithful, &mut stores[0], right);
            let what = match ask.kind {
                Kind::Save => ["save: answer", "save: store"],
                Kind::Recall => ["recall: answer", "recall: board"],
                Kind::Drop => ["drop: answer", "drop: store"],
            };
            if ask.told(wrong, &mut stores[1], told) != answer {
                return Some((calls, what[0]));
            }
            if right != told || stores[0] != stores[1] {
                return Some((calls, what[1]));
            }
        }
    }
    None
}
