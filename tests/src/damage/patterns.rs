//! Basins that break the rule of delay patterns: a sum above 100, by however much.

use super::edits::{any_place, edit_pattern, later_place, Edit};
use crate::examples::pattern;

pub const BROKEN: &[(&str, Edit)] = &[
    ("pattern of 101 at once", |b, rng| edit_pattern(b, rng, &[101])),
    ("pattern summing to 101", |b, rng| edit_pattern(b, rng, &[50, 30, 21])),
    // In a byte 256 would be nothing, 356 and 612 would be 100.
    ("pattern summing to 256", |b, rng| edit_pattern(b, rng, &[100, 100, 56])),
    ("pattern summing to 356, none above 100", |b, rng| edit_pattern(b, rng, &[100, 100, 100, 56])),
    ("pattern summing to 356, with 255", |b, rng| edit_pattern(b, rng, &[101, 255])),
    ("pattern summing to 612", |b, rng| edit_pattern(b, rng, &[255, 255, 102])),
    ("pattern of twelve times 255", |b, rng| edit_pattern(b, rng, &[255; 12])),
    ("pattern right but for its last month", |b, rng| {
        let place = any_place(rng, b.patterns.len())?;
        let sum: u8 = b.patterns[place].iter().sum();
        b.patterns[place][11] += 101 - sum;
        Some(place)
    }),
    ("two patterns at fault, the first counts", |b, rng| {
        let later = later_place(rng, b.patterns.len())?;
        let place = rng.below(later);
        b.patterns[later] = pattern(&[102]);
        b.patterns[place] = pattern(&[0, 101]);
        Some(place)
    }),
];
