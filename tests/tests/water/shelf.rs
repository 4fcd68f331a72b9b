//! What a store holds, kept apart from the engines: what was saved under which name, and
//! whether it is a possible board of the basin. Places and lengths are written out from 02.

use river_tests::damage::{impossible_board, IMPOSSIBLE};
use river_tests::engine::store::Name;
use river_tests::engine::Answer;
use river_tests::generate::{any_numbers, River, Rng, NAMES};

/// Any numbers that a board can be lent with, and what the basin says of them.
#[derive(Clone)]
pub struct Board {
    pub numbers: Vec<u64>,
    pub possible: bool,
}

impl Board {
    /// Half of them possible.
    pub fn any(river: &River, rng: &mut Rng) -> Board {
        let mut numbers = river.possible_board(rng);
        match rng.below(4) {
            0 => {
                numbers = any_numbers(rng);
                numbers[0] |= 12; // no month
            }
            1 => loop {
                let &(_, edit) = rng.pick(IMPOSSIBLE);
                if impossible_board(edit, &river.basin, &mut numbers, rng).is_some() {
                    break;
                }
            },
            _ => return Board { numbers, possible: true },
        }
        Board { numbers, possible: false }
    }
}

pub struct Shelf {
    names: [Name; 4],
    boards: [Board; 4],
}

impl Shelf {
    /// Few names, often twice, over any boards; some entries are empty.
    pub fn any(river: &River, rng: &mut Rng) -> Shelf {
        let empty = *rng.pick(&[0, 40, 100]);
        let name = |rng: &mut Rng| if rng.chance(empty) { [0; 8] } else { NAMES[rng.below(4)] };
        Shelf {
            names: std::array::from_fn(|_| name(rng)),
            boards: std::array::from_fn(|_| Board::any(river, rng)),
        }
    }

    /// The earliest of a name.
    fn place(&self, name: &[u8]) -> Option<usize> {
        self.names.iter().position(|there| there == name)
    }

    pub fn save(&mut self, name: &[u8], board: &Board) -> Answer {
        if name.len() != 8 || board.numbers.len() != 1226 {
            return (6, 0);
        }
        if name == [0; 8] {
            return (11, 0);
        }
        let Some(place) = self.place(name).or(self.place(&[0; 8])) else { return (12, 0) };
        self.names[place].copy_from_slice(name);
        self.boards[place] = board.clone();
        (0, 0)
    }

    pub fn recall(&self, name: &[u8], length: usize) -> Result<&Board, Answer> {
        if name.len() != 8 || length != 1226 {
            return Err((6, 0));
        }
        match self.place(name) {
            Some(place) if name != [0; 8] => Ok(&self.boards[place]),
            _ => Err((11, 0)),
        }
    }

    pub fn drop_name(&mut self, name: &[u8]) -> Answer {
        match self.place(name) {
            _ if name.len() != 8 => (6, 0),
            Some(place) if name != [0; 8] => {
                self.names[place] = [0; 8];
                (0, 0)
            }
            _ => (11, 0),
        }
    }

    /// The store that these are.
    pub fn bytes(&self) -> Vec<u8> {
        let mut store = self.names.concat();
        for number in self.boards.iter().flat_map(|board| &board.numbers) {
            store.extend(number.to_le_bytes());
        }
        store
    }
}
