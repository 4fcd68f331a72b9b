//! Basins that break a rule of reservoirs.

use super::edits::{edit_reservoir, later_place, Edit};
use crate::engine::records::*;

pub const BROKEN: &[(&str, Edit)] = &[
    ("reservoir's row one too high", |b, rng| {
        let rows = b.stations.len() as u8;
        edit_reservoir(b, rng, |r| r.row = rows)
    }),
    ("reservoir's row 255", |b, rng| edit_reservoir(b, rng, |r| r.row = 255)),
    ("reservoir's first zero byte", |b, rng| edit_reservoir(b, rng, |r| r.zeros[0] = 1)),
    ("reservoir's second zero byte", |b, rng| edit_reservoir(b, rng, |r| r.zeros[1] = 16)),
    ("reservoir's third zero byte", |b, rng| edit_reservoir(b, rng, |r| r.zeros[2] = 128)),
    ("capacity 0", |b, rng| {
        edit_reservoir(b, rng, |r| {
            r.capacity = 0;
            r.start = 0;
        })
    }),
    ("capacity 2,000,000,001", |b, rng| edit_reservoir(b, rng, |r| r.capacity = 2_000_000_001)),
    ("capacity 2^32 - 1", |b, rng| edit_reservoir(b, rng, |r| r.capacity = u32::MAX)),
    ("starting storage one above capacity", |b, rng| {
        edit_reservoir(b, rng, |r| r.start = r.capacity.wrapping_add(1))
    }),
    ("starting storage 2^32 - 1", |b, rng| edit_reservoir(b, rng, |r| r.start = u32::MAX)),
    ("first table storage 1", |b, rng| {
        edit_reservoir(b, rng, |r| {
            for (place, pair) in r.area_capacity.iter_mut().enumerate() {
                pair.storage = 1 + 10 * place as u32;
            }
        })
    }),
    ("table storage as the one before", |b, rng| {
        let pair = rng.below(3) + 1;
        edit_reservoir(b, rng, |r| {
            r.area_capacity[pair].storage = r.area_capacity[pair - 1].storage
        })
    }),
    ("table storage below the one before", |b, rng| {
        let pair = rng.below(2) + 2;
        edit_reservoir(b, rng, |r| {
            r.area_capacity[pair].storage = r.area_capacity[pair - 1].storage.wrapping_sub(1);
        })
    }),
    ("area 1,000,001", |b, rng| {
        let pair = rng.below(4);
        edit_reservoir(b, rng, |r| r.area_capacity[pair].area = 1_000_001)
    }),
    ("area 2^32 - 1", |b, rng| {
        let pair = rng.below(4);
        edit_reservoir(b, rng, |r| r.area_capacity[pair].area = u32::MAX)
    }),
    ("depth 1001", |b, rng| {
        let m = rng.below(MONTHS);
        edit_reservoir(b, rng, |r| r.depths[m] = 1001)
    }),
    ("depth 65535", |b, rng| {
        let m = rng.below(MONTHS);
        edit_reservoir(b, rng, |r| r.depths[m] = 65535)
    }),
    ("two reservoirs at fault, the first counts", |b, rng| {
        let later = later_place(rng, b.reservoirs.len())?;
        let place = rng.below(later);
        b.reservoirs[later].capacity = u32::MAX;
        b.reservoirs[place].depths[11] = 1001;
        Some(place)
    }),
];
