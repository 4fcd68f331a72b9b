//! The bodies of a valid basin, drawn at random.

use super::Rng;
use crate::engine::records::*;
use crate::engine::tally::path;
use std::collections::BTreeSet;

/// Any number up to `most`, the ends more often.
pub fn up_to(rng: &mut Rng, most: u64) -> u64 {
    match rng.below(6) {
        0 => 0,
        1 => most,
        _ => rng.between(0, most),
    }
}

/// Reservoirs, patterns and rights for a network.
pub fn with_bodies(
    rng: &mut Rng,
    stations: Vec<Station>,
    [reservoirs, patterns, rights]: [usize; 3],
    amount_limit: u32,
) -> Basin {
    let rows = stations.len();
    let mut basin = Basin {
        stations,
        reservoirs: (0..reservoirs).map(|_| reservoir(rng, rows, amount_limit)).collect(),
        patterns: (0..patterns).map(|_| pattern(rng)).collect(),
        rights: Vec::new(),
    };
    basin.rights = sorted_rights(rng, &basin, rights, amount_limit);
    basin
}

/// A tree of tributaries, one stream where `steep` is 0. From the last row up, a row may have
/// any order that finds a row below; a row added above never changes what those below find.
pub fn stations_of(rng: &mut Rng, rows: usize, steep: u64) -> Vec<Station> {
    let mut orders = vec![1u8];
    while orders.len() < rows {
        let later = if rng.chance(60) { orders[orders.len() - 1] } else { *rng.pick(&orders) };
        let order = if rng.chance(steep) { (later + 1).min(8) } else { later };
        orders.push(order);
    }
    orders.reverse();
    let mut number = 0;
    let step = *rng.pick(&[1, 100, 999_999 / rows as u64]);
    let mut station = |order| {
        number += rng.between(1, step) as u32;
        Station { number, order, zeros: [0; 3] }
    };
    orders.into_iter().map(&mut station).collect()
}

fn reservoir(rng: &mut Rng, rows: usize, amount_limit: u32) -> Reservoir {
    let roomy = *rng.pick(&[1, 3, 20]);
    let capacity = (rng.between(1, amount_limit as u64) * roomy).min(2_000_000_000);
    let start = up_to(rng, capacity) as u32;
    let storages = table_storages(rng, start, capacity as u32);
    let acres = *rng.pick(&[0, 3, capacity / 100 + 1, 1_000_000]);
    let area_capacity =
        storages.map(|storage| Pair { storage, area: rng.between(0, acres.min(1_000_000)) as u32 });
    let deepest = *rng.pick(&[0, 5, 60, 1000]);
    Reservoir {
        // Few rows for many reservoirs: some share one.
        row: rng.below(rows) as u8,
        zeros: [0; 3],
        capacity: capacity as u32,
        start,
        area_capacity,
        depths: std::array::from_fn(|_| rng.between(0, deepest) as u16),
    }
}

/// Strictly rising from 0. The table may end below the capacity or above it, and
/// often has a pair at the starting storage or at the capacity itself.
fn table_storages(rng: &mut Rng, start: u32, capacity: u32) -> [u32; 4] {
    let mut storages = BTreeSet::from([0]);
    while storages.len() < 4 {
        storages.insert(match rng.below(4) {
            0 => start,
            1 => capacity,
            _ => rng.between(1, 2 * capacity as u64 + 3) as u32,
        });
    }
    let mut rising = storages.into_iter();
    std::array::from_fn(|_| rising.next().unwrap())
}

/// Areas of 0 and 1,000,000 alone, storages of any size up to the largest number. The depth
/// is small, so that a large lake is not dry after a month.
pub fn extreme_table(rng: &mut Rng, lake: &mut Reservoir) {
    let mut storages = BTreeSet::from([0]);
    while storages.len() < 4 {
        let most = *rng.pick(&[lake.start.max(3), lake.capacity.max(3), u32::MAX]);
        storages.insert(if rng.chance(50) { most } else { rng.between(1, most as u64) as u32 });
    }
    for (pair, storage) in lake.area_capacity.iter_mut().zip(storages) {
        *pair = Pair { storage, area: *rng.pick(&[0, 1_000_000]) };
    }
    lake.depths = [rng.between(0, 2) as u16; MONTHS];
}

/// Twelve percents that sum to 100, spread over few months or many.
fn pattern(rng: &mut Rng) -> Pattern {
    let mut percents = [0; MONTHS];
    let months = rng.below(MONTHS) + 1;
    let first = rng.below(MONTHS - months + 1);
    let first = if rng.chance(60) { 0 } else { first };
    for percent in cut_hundred(rng, months).into_iter().enumerate() {
        percents[first + percent.0] = percent.1;
    }
    percents
}

/// Makes a pattern one that loses water: all of it, all but what comes last, what would come
/// in some of its months, or part of every month's. One in eight stays as it is.
pub fn losing(rng: &mut Rng, pattern: &mut Pattern) {
    match rng.below(8) {
        0 => pattern.fill(0),
        1 => {
            pattern.fill(0);
            let last = rng.between(1, 100) as u8;
            pattern[MONTHS - 1] = *rng.pick(&[1, 99, 100, last]);
        }
        2 => pattern[rng.below(MONTHS)..].fill(0),
        3 | 4 => pattern.iter_mut().filter(|_| rng.chance(40)).for_each(|percent| *percent = 0),
        5 | 6 => {
            pattern.iter_mut().for_each(|percent| *percent = rng.between(0, *percent as u64) as u8)
        }
        _ => (),
    }
}

/// Percents that sum to 100, each 0 to 100.
fn cut_hundred(rng: &mut Rng, parts: usize) -> Vec<u8> {
    let mut cuts: Vec<u8> = (1..parts).map(|_| rng.between(0, 100) as u8).collect();
    cuts.push(100);
    cuts.sort();
    let mut before = 0;
    let mut part = |cut| {
        let percent = cut - before;
        before = cut;
        percent
    };
    cuts.into_iter().map(&mut part).collect()
}

/// Percents that sum to 100, each at least 1.
fn cut_hundred_without_zero(rng: &mut Rng, parts: usize) -> Vec<u8> {
    loop {
        let percents = cut_hundred(rng, parts);
        if percents.iter().all(|&percent| percent > 0) {
            return percents;
        }
    }
}

/// Rights in order, no two with the same date and permit.
fn sorted_rights(rng: &mut Rng, basin: &Basin, count: usize, amount_limit: u32) -> Vec<Right> {
    let dates: Vec<u32> = (0..rng.below(40) + 1).map(|_| date(rng)).collect();
    let permits = *rng.pick(&[3 * count as u64 + 3, 999_999_999]);
    let mut rights: Vec<Right> = Vec::new();
    while rights.len() < count {
        let mut right = right(rng, basin, amount_limit);
        right.date = *rng.pick(&dates);
        right.permit = rng.between(1, permits) as u32;
        let key = |right: &Right| (right.date, right.permit);
        if rights.iter().all(|other| key(other) != key(&right)) {
            rights.push(right);
        }
    }
    rights.sort_by_key(|right| (right.date, right.permit));
    rights
}

/// Not always a day of the calendar: dates are only numbers.
fn date(rng: &mut Rng) -> u32 {
    match rng.below(8) {
        0 => UNDATED,
        1 => 18_000_101,
        2 => 20_991_231,
        _ => rng.between(18_000_101, 20_991_231) as u32,
    }
}

fn right(rng: &mut Rng, basin: &Basin, amount_limit: u32) -> Right {
    let kind = *rng.pick(kinds_of(basin));
    right_of_kind(rng, basin, kind, amount_limit)
}

/// The kinds that the rights of a basin can have, as often as they are to be drawn.
pub fn kinds_of(basin: &Basin) -> &'static [u8] {
    if basin.reservoirs.is_empty() {
        &[DIRECT, DIRECT, DIRECT, INSTREAM]
    } else {
        &[DIRECT, DIRECT, PROJECT, PROJECT, INSTREAM, STORAGE, STORAGE]
    }
}

/// A right without date and permit.
pub fn right_of_kind(rng: &mut Rng, basin: &Basin, kind: u8, amount_limit: u32) -> Right {
    let rows = basin.stations.len();
    let (mut row, mut reservoir, mut limit) = (rng.below(rows) as u8, NONE, 0);
    if kind == PROJECT || kind == STORAGE {
        reservoir = rng.below(basin.reservoirs.len()) as u8;
        let lake_row = basin.reservoirs[reservoir as usize].row;
        let downstream = path(&basin.stations, lake_row as usize);
        row = if kind == STORAGE { lake_row } else { *rng.pick(&downstream) as u8 };
    }
    if kind == STORAGE {
        let most = (amount_limit as u64 * *rng.pick(&[1, 4, 40])).min(2_000_000_000);
        limit = rng.between(1, most) as u32;
    }
    let diverts = kind == DIRECT || kind == PROJECT;
    let right = Right {
        permit: 0,
        date: 0,
        kind,
        row,
        reservoir,
        efficiency: if diverts { 100 } else { 0 },
        pattern: NONE,
        points: 0,
        months: *rng.pick(&[0xfff, 0xfff, 0xf81, 0]) | (rng.word() as u16 & 0xfff),
        limit,
        amounts: std::array::from_fn(|_| up_to(rng, amount_limit as u64) as u32),
        returns: [ReturnPoint { row: 0, percent: 0 }; 4],
    };
    let right = if rng.chance(5) { Right { months: 0, ..right } } else { right };
    if diverts && !basin.patterns.is_empty() && rng.chance(75) {
        with_points(rng, right, basin)
    } else {
        right
    }
}

/// One to four return points at or after the right's row, on its path or not,
/// two of them at one row now and then.
fn with_points(rng: &mut Rng, right: Right, basin: &Basin) -> Right {
    let efficiency = *rng.pick(&[0, 33, 50, rng.0 as u8 % 101, 99, 100]);
    let pattern = rng.below(basin.patterns.len()) as u8;
    let count = rng.below(4) + 1;
    let last = basin.stations.len() as u64 - 1;
    let percents = cut_hundred_without_zero(rng, count);
    let points: Vec<(u8, u8)> = percents
        .into_iter()
        .map(|percent| (rng.between(right.row as u64, last) as u8, percent))
        .collect();
    right.returning(efficiency, pattern, &points)
}
