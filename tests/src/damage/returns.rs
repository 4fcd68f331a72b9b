//! Basins that break a rule of rights: efficiency, pattern, return points.

use super::edits::*;
use crate::engine::records::*;

pub const BROKEN: &[(&str, Edit)] = &[
    ("instream right with efficiency 1", |b, rng| {
        edit_right(b, rng, of_kind(INSTREAM), |r| r.efficiency = 1)
    }),
    ("instream right with efficiency 100", |b, rng| {
        edit_right(b, rng, of_kind(INSTREAM), |r| r.efficiency = 100)
    }),
    ("storage right with efficiency 100", |b, rng| {
        edit_right(b, rng, of_kind(STORAGE), |r| r.efficiency = 100)
    }),
    ("instream right with a pattern", |b, rng| {
        any_place(rng, b.patterns.len())?;
        edit_right(b, rng, of_kind(INSTREAM), |r| r.pattern = 0)
    }),
    ("storage right with a pattern", |b, rng| {
        any_place(rng, b.patterns.len())?;
        edit_right(b, rng, of_kind(STORAGE), |r| r.pattern = 0)
    }),
    ("instream right with a return point", |b, rng| {
        edit_right(b, rng, of_kind(INSTREAM), |r| points(r, &[100]))
    }),
    ("storage right with a return point", |b, rng| {
        edit_right(b, rng, of_kind(STORAGE), |r| points(r, &[100]))
    }),
    ("no points and efficiency 99", |b, rng| {
        edit_right(b, rng, without_points, |r| r.efficiency = 99)
    }),
    ("no points and efficiency 0", |b, rng| {
        edit_right(b, rng, without_points, |r| r.efficiency = 0)
    }),
    ("no points and efficiency 101", |b, rng| {
        edit_right(b, rng, without_points, |r| r.efficiency = 101)
    }),
    ("no points and a pattern", |b, rng| {
        any_place(rng, b.patterns.len())?;
        edit_right(b, rng, without_points, |r| r.pattern = 0)
    }),
    ("no points and pattern 254", |b, rng| edit_right(b, rng, without_points, |r| r.pattern = 254)),
    ("points and efficiency 101", |b, rng| edit_right(b, rng, with_points, |r| r.efficiency = 101)),
    ("points and efficiency 255", |b, rng| edit_right(b, rng, with_points, |r| r.efficiency = 255)),
    ("points and a pattern one too high", |b, rng| {
        let count = b.patterns.len() as u8;
        edit_right(b, rng, with_points, |r| r.pattern = count)
    }),
    ("points and no pattern", |b, rng| edit_right(b, rng, with_points, |r| r.pattern = NONE)),
    ("return row one too high", |b, rng| {
        let rows = b.stations.len() as u8;
        let point = rng.word() as u8;
        edit_right(b, rng, with_points, |r| r.returns[(point % r.points) as usize].row = rows)
    }),
    ("return row 255", |b, rng| {
        let point = rng.word() as u8;
        edit_right(b, rng, with_points, |r| r.returns[(point % r.points) as usize].row = 255)
    }),
    ("return row just before the right's row", |b, rng| {
        let point = rng.word() as u8;
        let later = |r: &Right| with_points(r) && r.row > 0;
        edit_right(b, rng, later, |r| r.returns[(point % r.points) as usize].row = r.row - 1)
    }),
    ("return percent 0 at the first point", |b, rng| {
        edit_right(b, rng, with_points, |r| points(r, &[0, 100]))
    }),
    ("return percent 0 at the last point", |b, rng| {
        edit_right(b, rng, with_points, |r| points(r, &[50, 20, 30, 0]))
    }),
    ("return percents summing to 99", |b, rng| {
        edit_right(b, rng, with_points, |r| points(r, &[49, 50]))
    }),
    ("return percents summing to 101", |b, rng| {
        edit_right(b, rng, with_points, |r| points(r, &[25, 25, 25, 26]))
    }),
    ("single return percent 99", |b, rng| edit_right(b, rng, with_points, |r| points(r, &[99]))),
    ("single return percent 101", |b, rng| edit_right(b, rng, with_points, |r| points(r, &[101]))),
    ("return percents summing to 356, none above 100", |b, rng| {
        edit_right(b, rng, with_points, |r| points(r, &[100, 100, 100, 56]))
    }),
    ("return percents summing to 356, with 255", |b, rng| {
        edit_right(b, rng, with_points, |r| points(r, &[255, 101]))
    }),
    ("return percents 156 and 200, 100 modulo 256", |b, rng| {
        edit_right(b, rng, with_points, |r| points(r, &[156, 200]))
    }),
    ("five points", |b, rng| {
        edit_right(b, rng, with_points, |r| {
            points(r, &[25, 25, 25, 25]);
            r.points = 5;
        })
    }),
    ("255 points", |b, rng| edit_right(b, rng, with_points, |r| r.points = 255)),
    ("one point more than there are percents", |b, rng| {
        edit_right(b, rng, |r| with_points(r) && r.points < 4, |r| r.points += 1)
    }),
    ("unused pair with a row", |b, rng| {
        edit_right(b, rng, |r| r.points < 4, |r| r.returns[3].row = 1)
    }),
    ("unused pair with a percent", |b, rng| {
        edit_right(b, rng, |r| r.points < 4, |r| r.returns[r.points as usize].percent = 1)
    }),
    ("unused first pair of an instream right", |b, rng| {
        edit_right(b, rng, of_kind(INSTREAM), |r| r.returns[0].percent = 100)
    }),
    ("unused pair of a storage right", |b, rng| {
        edit_right(b, rng, of_kind(STORAGE), |r| r.returns[2].row = 1)
    }),
];
