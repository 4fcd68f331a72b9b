//! Which row flows into which.

use super::records::{MOST_STATIONS, STATION_BYTES};
use super::slip::{Slip, Telling};

/// No row below.
const NO_ROW: u8 = 255;

/// Who flows into whom. A set of rows is a word of 64 bits, bit r for row r;
/// since the row below is always a later row, the lowest bit of a path is its
/// first row.
pub struct Network {
    below: [u8; MOST_STATIONS],
    /// The row itself and all rows downstream.
    pub path: [u64; MOST_STATIONS],
}

impl Network {
    /// Room for a network; the check fills it in.
    pub const fn room() -> Network {
        Network { below: [NO_ROW; MOST_STATIONS], path: [0; MOST_STATIONS] }
    }

    /// Finds every row's row below (01, The path of a row): of the later rows with its
    /// order or the order next lower, the first. Order bytes are taken as they stand,
    /// also those out of range.
    pub fn fill<T: Telling>(&mut self, telling: &T, stations: &[[u8; STATION_BYTES]]) {
        // nearest[o]: the first row with order o after the one being looked at.
        let mut nearest = [NO_ROW; 256];
        for row in (0..stations.len()).rev() {
            let order = stations[row][4] as usize;
            let one_less = if order == 0 { NO_ROW } else { nearest[order - 1] };
            self.below[row] = nearest[order].min(one_less);
            if (1..=8).contains(&order) || !telling.slips(Slip::BelowSkipsBadOrders) {
                nearest[order] = row as u8;
            }
            self.path[row] = 1 << row | self.path_below(telling, row, stations.len());
        }
    }

    fn path_below<T: Telling>(&self, telling: &T, row: usize, rows: usize) -> u64 {
        let below = if telling.slips(Slip::PathByNextRow) && row + 1 < rows {
            row as u8 + 1
        } else {
            self.below[row]
        };
        if below == NO_ROW {
            0
        } else {
            self.path[below as usize]
        }
    }

    #[inline(always)]
    pub fn has_row_below(&self, row: usize) -> bool {
        self.below[row] != NO_ROW
    }

    /// Whether `row` lies on the path that begins at `from`.
    #[inline(always)]
    pub fn on_path(&self, row: usize, from: usize) -> bool {
        self.path[from] >> row & 1 == 1
    }
}
