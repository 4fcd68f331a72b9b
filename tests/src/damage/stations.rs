//! Basins that break a rule of stations.

use super::edits::{later_place, only_stations, Edit};

pub const BROKEN: &[(&str, Edit)] = &[
    ("station number 0", |b, _| {
        b.stations[0].number = 0;
        Some(0)
    }),
    ("station number 1,000,000", |b, _| {
        b.stations.last_mut()?.number = 1_000_000;
        Some(b.stations.len() - 1)
    }),
    ("station number 2^32 - 1", |b, _| {
        b.stations.last_mut()?.number = u32::MAX;
        Some(b.stations.len() - 1)
    }),
    ("station number as the one before", |b, rng| {
        let row = later_place(rng, b.stations.len())?;
        b.stations[row].number = b.stations[row - 1].number;
        Some(row)
    }),
    ("station number one below the one before", |b, rng| {
        let row = later_place(rng, b.stations.len())?;
        b.stations[row].number = b.stations[row - 1].number.wrapping_sub(1);
        Some(row)
    }),
    ("two neighbouring station numbers changed round", |b, rng| {
        let row = later_place(rng, b.stations.len())?;
        let number = b.stations[row].number;
        b.stations[row].number = b.stations[row - 1].number;
        b.stations[row - 1].number = number;
        Some(row)
    }),
    ("station's first zero byte", |b, rng| {
        let row = rng.below(b.stations.len());
        b.stations[row].zeros[0] = 1;
        Some(row)
    }),
    ("station's second zero byte", |b, rng| {
        let row = rng.below(b.stations.len());
        b.stations[row].zeros[1] = 128;
        Some(row)
    }),
    ("station's third zero byte", |b, rng| {
        let row = rng.below(b.stations.len());
        b.stations[row].zeros[2] = 255;
        Some(row)
    }),
    ("zero bytes of two stations, the first counts", |b, rng| {
        let later = later_place(rng, b.stations.len())?;
        let row = rng.below(later);
        b.stations[row].zeros[1] = 1;
        b.stations[later].zeros[1] = 1;
        Some(row)
    }),
    ("order 0 in the first row", |b, _| {
        b.stations[0].order = 0;
        Some(0)
    }),
    ("order 255 in the first row", |b, _| {
        b.stations[0].order = 255;
        Some(0)
    }),
    ("order 9 above order 8", |b, _| {
        let list: Vec<_> = (1..=9).map(|n| (n, 10 - n as u8)).collect();
        only_stations(b, &list, 0)
    }),
    ("order 0 above order 0", |b, _| only_stations(b, &[(1, 0), (2, 0), (3, 1)], 0)),
    ("last row of order 0, found by order 1 as it stands", |b, _| {
        only_stations(b, &[(1, 1), (2, 0)], 1)
    }),
    ("last row of order 9, so that order 1 above finds none", |b, _| {
        only_stations(b, &[(1, 1), (2, 9)], 0)
    }),
    ("a wrong order below makes the row above find none", |b, _| {
        only_stations(b, &[(1, 1), (2, 3), (3, 9), (4, 1)], 1)
    }),
    ("order 3 with only order 1 below", |b, _| only_stations(b, &[(1, 3), (2, 1), (3, 1)], 0)),
    ("order 4 between orders 1, with 2 below", |b, _| {
        only_stations(b, &[(1, 1), (2, 1), (3, 4), (4, 2), (5, 1)], 2)
    }),
    ("order 1 with only order 2 below", |b, _| only_stations(b, &[(1, 1), (2, 2)], 0)),
    ("last row of order 2, found by order 2", |b, _| {
        only_stations(b, &[(1, 2), (2, 3), (3, 2)], 2)
    }),
    ("single row of order 2", |b, _| only_stations(b, &[(1, 2)], 0)),
    ("single row of order 8", |b, _| only_stations(b, &[(999_999, 8)], 0)),
];
