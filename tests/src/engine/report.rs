//! The places of a report: four numbers of each right, then two of each row, then one of
//! each reservoir (01, The board and one month), then the month's deep loss (02, No. 5).

use super::records::{MOST_RESERVOIRS, MOST_RIGHTS, MOST_STATIONS};

pub const fn from_river(right: usize) -> usize {
    4 * right
}

pub const fn from_storage(right: usize) -> usize {
    from_river(right) + 1
}

pub const fn reason(right: usize) -> usize {
    from_river(right) + 2
}

pub const fn station(right: usize) -> usize {
    from_river(right) + 3
}

pub const fn flow(rights: usize, row: usize) -> usize {
    from_river(rights) + 2 * row
}

pub const fn available(rights: usize, row: usize) -> usize {
    flow(rights, row) + 1
}

pub const fn evaporation(rights: usize, rows: usize, reservoir: usize) -> usize {
    flow(rights, rows) + reservoir
}

/// One number for the whole basin, behind the last reservoir's.
pub const fn deep_loss(rights: usize, rows: usize, reservoirs: usize) -> usize {
    evaporation(rights, rows, reservoirs)
}

/// How many there are.
pub const fn length(rights: usize, rows: usize, reservoirs: usize) -> usize {
    deep_loss(rights, rows, reservoirs) + 1
}

/// Room for the report of any basin.
pub const LONGEST: usize = length(MOST_RIGHTS, MOST_STATIONS, MOST_RESERVOIRS);
