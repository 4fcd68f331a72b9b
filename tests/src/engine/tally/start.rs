//! Where a tally starts: as the file fills the reservoirs, or on a board that is possible for
//! its basin. Places of the board are written out from 01 and 02, not taken from the engine.

use super::refusals::decode;
use super::{path, Tally};
use crate::engine::records::*;

/// What the start has to say later on.
pub struct Start {
    pub m: usize,
    pub storages: Vec<i128>,
    /// Of each row, what is due 1 to 11 months after the start.
    pub dues: Vec<[i128; 11]>,
    /// Of each right, whether it was short in each month of the water year.
    pub short: Vec<[bool; MONTHS]>,
}

impl Tally {
    /// It begins with the reservoirs as the file fills them, and no month.
    pub fn new(file: &[u8]) -> Tally {
        let basin = decode(file);
        let empty = Basin::default();
        let known = basin.as_ref().unwrap_or(&empty);
        let (rows, rights) = (known.stations.len(), known.rights.len());
        let start = Start {
            m: 0,
            storages: known.reservoirs.iter().map(|r| r.start as i128).collect(),
            dues: vec![[0; 11]; rows],
            short: vec![[false; MONTHS]; rights],
        };
        Tally {
            paths: (0..rows).map(|row| path(&known.stations, row)).collect(),
            m: 0,
            storages: start.storages.clone(),
            marks: vec![false; known.reservoirs.len()],
            taken: vec![0; rights],
            months: Vec::new(),
            start,
            basin,
        }
    }

    /// It begins with what a possible board tells, and no month: after a recall anew (02, No. 7).
    /// The sums then count from that board: what it has stored and due stands for what the file
    /// fills in, and in a reservoir's account what it has stored alone.
    pub fn on_board(file: &[u8], board: &[u64]) -> Tally {
        let mut tally = Tally::new(file);
        let number = |place: usize| board[place] as i128;
        let start = &mut tally.start;
        start.m = board[0] as usize;
        for (lake, storage) in start.storages.iter_mut().enumerate() {
            *storage = number(1 + lake);
            tally.marks[lake] = board[9] & (1 << lake) != 0;
        }
        for (row, dues) in start.dues.iter_mut().enumerate() {
            *dues = std::array::from_fn(|late| number(266 + 11 * row + late));
        }
        for (right, short) in start.short.iter_mut().enumerate() {
            tally.taken[right] = number(10 + right);
            *short = std::array::from_fn(|m| board[970 + right] & (1 << m) != 0);
        }
        tally.m = start.m;
        tally.storages = start.storages.clone();
        tally
    }
}
