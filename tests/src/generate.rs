//! A seeded generator of valid basins, younger rights for them, runoff sheets, runoff books,
//! possible boards and stores of boards.

use crate::engine::board::{due, most_due, BOARD, MARKS, NEXT_MONTH, SHORT, STORAGES, TAKEN};
use crate::engine::records::*;

mod bodies;
mod books;
mod rng;
mod stores;
mod younger;
pub use bodies::kinds_of;
use bodies::{extreme_table, losing, stations_of, up_to, with_bodies};
pub use books::{any_listed, years_of};
pub use rng::Rng;
pub use stores::{any_name, any_numbers, any_store, NAMES};
pub use younger::{at_another_place, with_other_amounts, younger_rights};

/// How many of each there are.
#[derive(Clone, Copy, Debug)]
pub enum Size {
    One,
    Small,
    Middle,
    /// 64 stations, 8 reservoirs, 16 patterns, 256 rights.
    Limit,
}

/// How large the numbers are: few units show rounding, many show overflow.
#[derive(Clone, Copy, Debug)]
pub enum Volume {
    Drops,
    Usual,
    Limit,
}

/// How much runoff there is against the demand.
#[derive(Clone, Copy, Debug)]
pub enum Water {
    Tight,
    Even,
    Loose,
}

/// A valid basin with the runoff that suits it.
pub struct River {
    pub basin: Basin,
    pub file: Vec<u8>,
    runoff_limit: u32,
}

/// A river of any size, volume and water.
pub fn any_river(rng: &mut Rng) -> River {
    let sizes = [Size::One, Size::Small, Size::Small, Size::Small, Size::Middle, Size::Middle];
    let size = if rng.chance(3) { Size::Limit } else { *rng.pick(&sizes) };
    river_of(rng, size)
}

pub fn river_of(rng: &mut Rng, size: Size) -> River {
    let volume = *rng.pick(&[Volume::Drops, Volume::Usual, Volume::Usual, Volume::Limit]);
    let water = *rng.pick(&[Water::Tight, Water::Even, Water::Loose]);
    let mut river = river(rng, size, volume, water);
    if rng.chance(20) {
        river.basin.reservoirs.iter_mut().for_each(|lake| extreme_table(rng, lake));
    }
    if rng.chance(70) {
        river.basin.patterns.iter_mut().for_each(|pattern| losing(rng, pattern));
    }
    river.file = river.basin.encode();
    river
}

/// All that is returned comes back, as in the stored files and the timed basins.
pub fn river(rng: &mut Rng, size: Size, volume: Volume, water: Water) -> River {
    let amount_limit = match volume {
        Volume::Drops => 25,
        Volume::Usual => 5000,
        Volume::Limit => 1_000_000_000,
    };
    let basin = basin(rng, size, amount_limit);
    let share = match water {
        Water::Tight => 3,
        Water::Even => 15,
        Water::Loose => 100,
    };
    // The demand of a month, at the middle, against the reaches that feed it.
    let demand = basin.rights.len() as u64 * amount_limit as u64 / 2;
    let reaches = basin.stations.len() as u64;
    let runoff_limit = (demand * share / 10 / reaches).clamp(5, MOST_RUNOFF as u64) as u32;
    let file = basin.encode();
    River { basin, file, runoff_limit }
}

impl River {
    /// Runoff of one month: dry, usual or high reaches.
    pub fn runoff(&self, rng: &mut Rng) -> Vec<u32> {
        let dry = rng.pick(&[0, 20, 60]).to_owned();
        (0..self.basin.stations.len()).map(|_| self.reach(rng, dry)).collect()
    }

    fn reach(&self, rng: &mut Rng, dry: u64) -> u32 {
        if rng.chance(dry) {
            0
        } else if rng.chance(2) {
            MOST_RUNOFF
        } else {
            rng.between(0, self.runoff_limit as u64) as u32
        }
    }

    /// A board that no run need reach, but possible: each number in its bounds.
    pub fn possible_board(&self, rng: &mut Rng) -> Vec<u64> {
        let mut board = vec![0; BOARD];
        board[NEXT_MONTH] = rng.between(0, 11);
        for (place, reservoir) in self.basin.reservoirs.iter().enumerate() {
            board[STORAGES + place] = up_to(rng, reservoir.capacity as u64);
        }
        board[MARKS] = rng.word() & ((1 << self.basin.reservoirs.len()) - 1);
        for (place, right) in self.basin.rights.iter().enumerate() {
            board[TAKEN + place] = up_to(rng, right.limit as u64);
        }
        let high = rng.chance(10);
        for row in 0..self.basin.stations.len() {
            for k in 1..=11 {
                let most = if high { most_due(k) } else { self.runoff_limit as u64 };
                board[due(row, k)] = if rng.chance(40) { up_to(rng, most) } else { 0 };
            }
        }
        for place in 0..self.basin.rights.len() {
            board[SHORT + place] = up_to(rng, 0xfff);
        }
        board
    }
}

/// The largest file there is: 64 stations, 8 reservoirs, 16 patterns, 256 rights.
pub fn largest() -> Basin {
    river(&mut Rng::new(20736), Size::Limit, Volume::Usual, Water::Even).basin
}

/// One stream without tributaries, with as many reservoirs, patterns and rights as there can be:
/// the path of a row is all rows from it on, so paths grow with the rows.
pub fn straight(rows: usize) -> Basin {
    let rng = &mut Rng::new(rows as u64);
    let stations = stations_of(rng, rows, 0);
    with_bodies(rng, stations, [MOST_RESERVOIRS, MOST_PATTERNS, MOST_RIGHTS], 5000)
}

/// A runoff sheet for a basin, from dry to wet reaches. `tenths`: how much there can be in all,
/// in tenths of the demand of a month at the middle.
pub fn sheet(rng: &mut Rng, basin: &Basin, tenths: u64) -> Vec<u32> {
    let amounts = |right: &Right| right.amounts.iter().map(|&amount| amount as u64).sum::<u64>();
    let demand = basin.rights.iter().map(amounts).sum::<u64>() / MONTHS as u64;
    let reaches = basin.stations.len() as u64;
    let most = (demand * tenths / 10 / reaches).clamp(5, MOST_RUNOFF as u64);
    (0..reaches).map(|_| rng.between(0, most) as u32).collect()
}

fn basin(rng: &mut Rng, size: Size, amount_limit: u32) -> Basin {
    let [rows, reservoirs, patterns, rights] = match size {
        Size::One => [1, rng.below(3), rng.below(2), rng.below(6)],
        Size::Small => [rng.below(6) + 2, rng.below(4), rng.below(4), rng.below(12)],
        Size::Middle => [rng.below(20) + 8, rng.below(9), rng.below(17), rng.below(50) + 10],
        Size::Limit => [MOST_STATIONS, MOST_RESERVOIRS, MOST_PATTERNS, MOST_RIGHTS],
    };
    let steep = *rng.pick(&[0, 30, 60]);
    let stations = stations_of(rng, rows, steep);
    with_bodies(rng, stations, [reservoirs, patterns, rights], amount_limit)
}
