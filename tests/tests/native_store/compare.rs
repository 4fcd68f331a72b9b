//! One call on a store by both engines: the answer, every byte of the store, every number of
//! the board, and what lies beside store, name and board.

use river_tests::engine::{drop_name, recall, save, Answer};
use river_tests::ffi;
use river_tests::lent::Lent;
use std::fmt::Display;

#[derive(Clone, Copy, Debug)]
pub enum Kind {
    Save,
    Recall,
    Drop,
}

pub const KINDS: [Kind; 3] = [Kind::Save, Kind::Recall, Kind::Drop];

/// What a call is lent; a drop has no board.
#[derive(Clone)]
pub struct Ask {
    pub kind: Kind,
    pub store: Vec<u8>,
    pub name: Vec<u8>,
    pub board: Vec<u64>,
}

#[derive(Default, Debug)]
pub struct Compared {
    /// Saves, recalls and drops by their number: 0 accepted, 6, 11 and 12 refused.
    pub numbers: [[usize; 13]; 3],
}

impl Compared {
    /// Makes a call by both engines. Answers number and place; what an accepted call leaves is
    /// left in `ask`.
    pub fn compare(&mut self, ask: &mut Ask, at: &dyn Display) -> Answer {
        let Ask { kind, name, .. } = &*ask;
        let (mut store, mut board) = (ask.store.clone(), ask.board.clone());
        let answer = match kind {
            Kind::Save => save(&mut store, name, &board),
            Kind::Recall => recall(&store, name, &mut board),
            Kind::Drop => drop_name(&mut store, name),
        };
        let (mut lent_store, mut lent_board) = (Lent::of(&ask.store), Lent::of(&ask.board));
        let mut lent_name = Lent::of(name);
        let native = match kind {
            Kind::Save => ffi::save(lent_store.list(), lent_name.list(), lent_board.list()),
            Kind::Recall => ffi::recall(lent_store.list(), lent_name.list(), lent_board.list()),
            Kind::Drop => ffi::drop_name(lent_store.list(), lent_name.list()),
        };
        assert_eq!(native, answer, "{at}: the answer of {kind:?}");
        self.numbers[*kind as usize][answer.0 as usize] += 1;
        lent_name.assert_is(name, "name", at);
        if answer.0 != 0 {
            lent_store.assert_is(&ask.store, "refused, store", at);
            lent_board.assert_is(&ask.board, "refused, board", at);
            return answer;
        }
        lent_store.assert_is(&store, "store", at);
        lent_board.assert_is(&board, "board", at);
        (ask.store, ask.board) = (store, board);
        answer
    }

    /// How many calls there were with one of these numbers.
    fn told(&self, numbers: std::ops::Range<usize>) -> usize {
        self.numbers.iter().map(|told| told[numbers.clone()].iter().sum::<usize>()).sum()
    }

    pub fn all(&self) -> usize {
        self.told(0..13)
    }

    /// native.sh adds up the counts of these lines.
    pub fn print(&self, what: &str) {
        let by_number = self.numbers.map(|told| [0, 6, 11, 12].map(|number: usize| told[number]));
        println!(
            "{} store calls, {} sent back: {what}, by number 0, 6, 11 and 12: saves {:?}, recalls \
             {:?}, drops {:?}",
            self.all(),
            self.told(1..13),
            by_number[0],
            by_number[1],
            by_number[2]
        );
    }
}
