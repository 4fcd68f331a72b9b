//! Basins that break a rule of rights: permit, date, order of the list.

use super::edits::*;
use crate::engine::records::*;

pub const BROKEN: &[(&str, Edit)] = &[
    ("permit 0", |b, rng| edit_right(b, rng, any, |r| r.permit = 0)),
    ("permit 1,000,000,000", |b, rng| edit_right(b, rng, any, |r| r.permit = 1_000_000_000)),
    ("permit 2^32 - 1", |b, rng| edit_right(b, rng, any, |r| r.permit = u32::MAX)),
    ("date 18000100", |b, _| {
        b.rights.first_mut()?.date = 18_000_100;
        Some(0)
    }),
    ("date 0", |b, _| {
        b.rights.first_mut()?.date = 0;
        Some(0)
    }),
    ("date 20991232", |b, _| {
        let place = last_dated(b)?;
        b.rights[place].date = 20_991_232;
        Some(place)
    }),
    ("date 99999998", |b, _| {
        let place = last_dated(b)?;
        b.rights[place].date = 99_999_998;
        Some(place)
    }),
    ("date 100000000", |b, _| {
        b.rights.last_mut()?.date = 100_000_000;
        Some(b.rights.len() - 1)
    }),
    ("date 2^32 - 1", |b, _| {
        b.rights.last_mut()?.date = u32::MAX;
        Some(b.rights.len() - 1)
    }),
    ("date and permit as the one before", |b, rng| {
        let place = later_place(rng, b.rights.len())?;
        b.rights[place].date = b.rights[place - 1].date;
        b.rights[place].permit = b.rights[place - 1].permit;
        Some(place)
    }),
    ("permit one below at the same date", |b, rng| {
        let place = after_a_right(b, rng, |before, _| before.permit > 1)?;
        b.rights[place].date = b.rights[place - 1].date;
        b.rights[place].permit = b.rights[place - 1].permit - 1;
        Some(place)
    }),
    ("date one below, permit above", |b, rng| {
        let lower = |before: &Right| before.date > 18_000_101 && before.date != UNDATED;
        let place = after_a_right(b, rng, |before, _| lower(before))?;
        b.rights[place].date = b.rights[place - 1].date - 1;
        b.rights[place].permit = 999_999_999;
        Some(place)
    }),
    ("two neighbouring rights changed round", |b, rng| {
        let place = later_place(rng, b.rights.len())?;
        b.rights.swap(place - 1, place);
        Some(place)
    }),
    ("undated right in front of the dated", |b, rng| {
        let dated = last_dated(b)? + 1;
        let undated = dated + any_place(rng, b.rights.len() - dated)?;
        let right = b.rights.remove(undated);
        b.rights.insert(0, right);
        Some(1)
    }),
    ("undated rights with falling permits", |b, _| {
        let first = last_dated(b)? + 1;
        (first + 1 < b.rights.len()).then_some(())?;
        b.rights[first].permit = b.rights[first + 1].permit;
        b.rights[first + 1].permit = b.rights[first + 1].permit.wrapping_sub(1);
        (b.rights[first + 1].permit > 0).then_some(first + 1)
    }),
];
