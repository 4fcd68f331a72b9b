//! Extreme legal values: the basin stays valid.

use super::edits::*;
use crate::engine::records::*;

pub const LEGAL: &[(&str, Edit)] = &[
    ("station number 1", |b, _| {
        b.stations[0].number = 1;
        Some(0)
    }),
    ("station number 999,999", |b, _| {
        b.stations.last_mut()?.number = 999_999;
        Some(0)
    }),
    ("orders 8 down to 1", |b, _| {
        let list: Vec<_> = (1..=8).map(|n| (n, 9 - n as u8)).collect();
        only_stations(b, &list, 0)
    }),
    ("order 8 above 8, order 2 passing by order 3", |b, _| {
        let orders = [8, 8, 7, 6, 5, 4, 2, 3, 2, 1];
        let list: Vec<_> = orders.iter().enumerate().map(|(n, &o)| (n as u32 + 1, o)).collect();
        only_stations(b, &list, 0)
    }),
    ("64 stations, nothing else", |b, _| {
        let list: Vec<_> = (1..=64).map(|n| (n, 1)).collect();
        only_stations(b, &list, 0)
    }),
    ("one station, nothing else", |b, _| only_stations(b, &[(1, 1)], 0)),
    ("capacity 1, full", |b, rng| {
        edit_reservoir(b, rng, |r| {
            r.capacity = 1;
            r.start = 1;
        })
    }),
    ("capacity 2,000,000,000, full", |b, rng| {
        edit_reservoir(b, rng, |r| {
            r.capacity = 2_000_000_000;
            r.start = 2_000_000_000;
        })
    }),
    ("empty at the start", |b, rng| edit_reservoir(b, rng, |r| r.start = 0)),
    ("table storages 0, 1, 2, 3 and areas 1,000,000", |b, rng| {
        edit_reservoir(b, rng, |r| {
            for (place, pair) in r.area_capacity.iter_mut().enumerate() {
                *pair = Pair { storage: place as u32, area: 1_000_000 };
            }
        })
    }),
    ("table far above capacity, falling areas", |b, rng| {
        edit_reservoir(b, rng, |r| {
            for (place, pair) in r.area_capacity.iter_mut().enumerate() {
                let storage = if place == 0 { 0 } else { u32::MAX - 3 + place as u32 };
                *pair = Pair { storage, area: 1_000_000 - place as u32 };
            }
        })
    }),
    ("depths 1000", |b, rng| edit_reservoir(b, rng, |r| r.depths = [1000; MONTHS])),
    ("two reservoirs on one row", |b, rng| {
        let place = any_place(rng, b.reservoirs.len())?;
        (b.reservoirs.len() < MOST_RESERVOIRS)
            .then(|| b.reservoirs.push(b.reservoirs[place].clone()))?;
        Some(0)
    }),
    ("pattern of 100 in its last month", |b, rng| {
        edit_pattern(b, rng, &[0, 0, 0, 0, 0, 0, 0, 0, 0, 0, 0, 100])
    }),
    ("pattern of 100 at once", |b, rng| edit_pattern(b, rng, &[100])),
    ("permit 1, date 18000101", |b, _| {
        let first = b.rights.first_mut()?;
        (first.permit, first.date) = (1, 18_000_101);
        Some(0)
    }),
    ("permit 999,999,999 undated", |b, _| {
        let last = b.rights.last_mut()?;
        (last.permit, last.date) = (999_999_999, UNDATED);
        Some(0)
    }),
    ("date 20991231", |b, _| {
        let place = last_dated(b)?;
        let before = place.checked_sub(1).map_or(0, |before| b.rights[before].date);
        (before < 20_991_231).then_some(())?;
        b.rights[place].date = 20_991_231;
        Some(0)
    }),
    ("date 18001399, no day of a calendar", |b, _| {
        let second = b.rights.get(1).map_or(UNDATED, |right| right.date);
        (second > 18_001_399).then_some(())?;
        b.rights.first_mut()?.date = 18_001_399;
        Some(0)
    }),
    ("the same permit at another date", |b, rng| {
        let place = after_a_right(b, rng, |before, right| before.date < right.date)?;
        let permit = b.rights[place - 1].permit;
        let after = b.rights.get(place + 1).map_or((u32::MAX, 0), |r| (r.date, r.permit));
        ((b.rights[place].date, permit) < after).then(|| b.rights[place].permit = permit)?;
        Some(0)
    }),
    ("months word 0", |b, rng| edit_right(b, rng, any, |r| r.months = 0)),
    ("months word 0xfff", |b, rng| edit_right(b, rng, any, |r| r.months = 0xfff)),
    ("amounts 1,000,000,000", |b, rng| {
        edit_right(b, rng, any, |r| r.amounts = [1_000_000_000; MONTHS])
    }),
    ("amounts 0", |b, rng| edit_right(b, rng, any, |r| r.amounts = [0; MONTHS])),
    ("limit 1", |b, rng| edit_right(b, rng, of_kind(STORAGE), |r| r.limit = 1)),
    ("limit 2,000,000,000", |b, rng| {
        edit_right(b, rng, of_kind(STORAGE), |r| r.limit = 2_000_000_000)
    }),
    ("points and efficiency 0", |b, rng| edit_right(b, rng, with_points, |r| r.efficiency = 0)),
    ("points and efficiency 100", |b, rng| edit_right(b, rng, with_points, |r| r.efficiency = 100)),
    ("the last pattern there is", |b, rng| {
        let last = b.patterns.len() as u8;
        edit_right(b, rng, with_points, |r| r.pattern = last - 1)
    }),
    ("single point of 100 at the right's own row", |b, rng| {
        edit_right(b, rng, with_points, |r| points(r, &[100]))
    }),
    ("four points at one row, 97 and three times 1", |b, rng| {
        edit_right(b, rng, with_points, |r| points(r, &[97, 1, 1, 1]))
    }),
    ("point in the last row", |b, rng| {
        let last = b.stations.len() as u8 - 1;
        edit_right(b, rng, with_points, |r| r.returns[0].row = last)
    }),
    ("project right at its reservoir", |b, rng| {
        let rows: Vec<u8> = b.reservoirs.iter().map(|lake| lake.row).collect();
        edit_right(b, rng, |r| r.kind == PROJECT, |r| r.row = rows[r.reservoir as usize])
    }),
    ("project right in the last row", |b, rng| {
        let last = b.stations.len() as u8 - 1;
        edit_right(b, rng, |r| r.kind == PROJECT && r.points == 0, |r| r.row = last)
    }),
    ("unused pairs absent with four points", |b, rng| {
        edit_right(b, rng, with_points, |r| points(r, &[25, 25, 25, 25]))
    }),
    // Patterns that lose water (02, No. 5).
    ("pattern summing to 99", |b, rng| edit_pattern(b, rng, &[98, 1])),
    ("pattern of 1 percent", |b, rng| edit_pattern(b, rng, &[1])),
    ("pattern of 1 percent in its last month", |b, rng| {
        edit_pattern(b, rng, &[0, 0, 0, 0, 0, 0, 0, 0, 0, 0, 0, 1])
    }),
    ("pattern with zeros between its months", |b, rng| {
        edit_pattern(b, rng, &[20, 0, 0, 30, 0, 0, 0, 0, 0, 0, 0, 7])
    }),
    ("pattern of zeros", |b, rng| edit_pattern(b, rng, &[])),
    ("every pattern of zeros", |b, _| {
        (!b.patterns.is_empty()).then(|| b.patterns.fill([0; MONTHS]))?;
        Some(0)
    }),
];
