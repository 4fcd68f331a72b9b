//! Basins that break a rule of rights: months word and amounts.

use super::edits::*;
use crate::engine::records::*;

pub const BROKEN: &[(&str, Edit)] = &[
    ("month bit 12", |b, rng| edit_right(b, rng, any, |r| r.months |= 1 << 12)),
    ("month bit 13", |b, rng| edit_right(b, rng, any, |r| r.months |= 1 << 13)),
    ("month bit 14", |b, rng| edit_right(b, rng, any, |r| r.months |= 1 << 14)),
    ("month bit 15", |b, rng| edit_right(b, rng, any, |r| r.months |= 1 << 15)),
    ("amount 1,000,000,001", |b, rng| {
        let m = rng.below(MONTHS);
        edit_right(b, rng, any, |r| r.amounts[m] = 1_000_000_001)
    }),
    ("amount 2^32 - 1 in a month not in use", |b, rng| {
        let m = rng.below(MONTHS);
        edit_right(b, rng, any, |r| {
            r.months = 0;
            r.amounts[m] = u32::MAX;
        })
    }),
    ("two rights at fault, the first counts", |b, rng| {
        let later = later_place(rng, b.rights.len())?;
        let place = rng.below(later);
        b.rights[later].months = 0x8000;
        b.rights[place].months = 0x1000;
        Some(place)
    }),
];
