//! Basins built by hand: 01's October, and helpers to write small ones.

use crate::engine::records::*;

/// Stations from number and order.
pub fn stations(list: &[(u32, u8)]) -> Vec<Station> {
    let station = |&(number, order): &(u32, u8)| Station { number, order, zeros: [0; 3] };
    list.iter().map(station).collect()
}

/// A reservoir with no evaporation.
pub fn reservoir(row: u8, capacity: u32, start: u32, pairs: [(u32, u32); 4]) -> Reservoir {
    Reservoir {
        row,
        zeros: [0; 3],
        capacity,
        start,
        area_capacity: pairs.map(|(storage, area)| Pair { storage, area }),
        depths: [0; MONTHS],
    }
}

/// A pattern that begins with these percents.
pub fn pattern(percents: &[u8]) -> Pattern {
    std::array::from_fn(|month| percents.get(month).copied().unwrap_or(0))
}

/// A right in use in every month, with the same amount, that returns nothing.
fn right(permit: u32, date: u32, kind: u8, row: u8, amount: u32) -> Right {
    Right {
        permit,
        date,
        kind,
        row,
        reservoir: NONE,
        efficiency: if kind == DIRECT || kind == PROJECT { 100 } else { 0 },
        pattern: NONE,
        points: 0,
        months: 0x0fff,
        limit: 0,
        amounts: [amount; MONTHS],
        returns: [ReturnPoint { row: 0, percent: 0 }; 4],
    }
}

pub fn direct(permit: u32, date: u32, row: u8, amount: u32) -> Right {
    right(permit, date, DIRECT, row, amount)
}

pub fn project(permit: u32, date: u32, row: u8, reservoir: u8, amount: u32) -> Right {
    Right { reservoir, ..right(permit, date, PROJECT, row, amount) }
}

pub fn instream(permit: u32, date: u32, row: u8, amount: u32) -> Right {
    right(permit, date, INSTREAM, row, amount)
}

pub fn storage(permit: u32, date: u32, row: u8, reservoir: u8, amount: u32, limit: u32) -> Right {
    Right { reservoir, limit, ..right(permit, date, STORAGE, row, amount) }
}

impl Right {
    /// The same right, returning what it does not consume.
    pub fn returning(mut self, efficiency: u8, pattern: u8, points: &[(u8, u8)]) -> Right {
        self.efficiency = efficiency;
        self.pattern = pattern;
        self.points = points.len() as u8;
        for (pair, &(row, percent)) in self.returns.iter_mut().zip(points) {
            *pair = ReturnPoint { row, percent };
        }
        self
    }
}

/// The October of 01 (One October, whole). What it leaves open: depth 0 in the other
/// months.
pub fn october() -> Basin {
    let pairs = [(0, 10), (2000, 20), (4000, 30), (6000, 40)];
    let mut lake = reservoir(0, 5000, 1000, pairs);
    lake.depths[0] = 5;
    Basin {
        stations: stations(&[(100, 2), (200, 1), (300, 1)]),
        reservoirs: vec![lake],
        patterns: vec![pattern(&[50, 30, 20])],
        rights: vec![
            direct(11, 18900501, 2, 1500),
            direct(12, 19000401, 1, 1201).returning(33, 0, &[(2, 100)]),
            storage(13, 19100101, 0, 0, 900, 3000),
            project(14, 19500101, 1, 0, 600),
            direct(15, UNDATED, 0, 50),
        ],
    }
}

/// The same with its first right alone.
pub fn october_elder() -> Basin {
    let mut basin = october();
    basin.rights.truncate(1);
    basin
}

pub const OCTOBER_RUNOFF: [u32; 3] = [2000, 700, 300];

/// Two tributaries, stations 10 and 20, that join at 30; below it 40. The direct rights
/// stand at rows 2, 0, 3, 2 and 1, the instream right at row 0.
pub fn tight_spots() -> Basin {
    Basin {
        stations: stations(&[(10, 2), (20, 3), (30, 2), (40, 1)]),
        rights: vec![
            direct(1, 18900101, 2, 10),
            direct(2, 18910101, 0, 15),
            direct(3, 18920101, 3, 5),
            direct(4, 18930101, 2, 5),
            direct(5, 18940101, 1, 5),
            instream(6, 18950101, 0, 12),
        ],
        ..Basin::default()
    }
}

/// A sheet of runoff numbers as `months.bin` holds it.
pub fn months_bytes(numbers: &[u32]) -> Vec<u8> {
    numbers.iter().flat_map(|number| number.to_le_bytes()).collect()
}
