//! Basins that break a rule of rights: kind, row, reservoir, yearly limit.

use super::edits::*;
use crate::engine::records::*;
use crate::engine::tally::path;

pub const BROKEN: &[(&str, Edit)] = &[
    ("kind 0", |b, rng| edit_right(b, rng, any, |r| r.kind = 0)),
    ("kind 5", |b, rng| edit_right(b, rng, any, |r| r.kind = 5)),
    ("kind 255", |b, rng| edit_right(b, rng, any, |r| r.kind = 255)),
    ("direct right's row one too high", |b, rng| {
        let rows = b.stations.len() as u8;
        edit_right(b, rng, |r| r.kind == DIRECT && r.points == 0, |r| r.row = rows)
    }),
    ("instream right's row one too high", |b, rng| {
        let rows = b.stations.len() as u8;
        edit_right(b, rng, of_kind(INSTREAM), |r| r.row = rows)
    }),
    ("project right's row one too high", |b, rng| {
        let rows = b.stations.len() as u8;
        edit_right(b, rng, |r| r.kind == PROJECT && r.points == 0, |r| r.row = rows)
    }),
    ("instream right's row 255", |b, rng| edit_right(b, rng, of_kind(INSTREAM), |r| r.row = 255)),
    ("direct right with a reservoir", |b, rng| {
        any_place(rng, b.reservoirs.len())?;
        edit_right(b, rng, of_kind(DIRECT), |r| r.reservoir = 0)
    }),
    ("direct right with reservoir 254", |b, rng| {
        edit_right(b, rng, of_kind(DIRECT), |r| r.reservoir = 254)
    }),
    ("instream right with a reservoir", |b, rng| {
        any_place(rng, b.reservoirs.len())?;
        edit_right(b, rng, of_kind(INSTREAM), |r| r.reservoir = 0)
    }),
    ("project right with a reservoir one too high", |b, rng| {
        let count = b.reservoirs.len() as u8;
        edit_right(b, rng, of_kind(PROJECT), |r| r.reservoir = count)
    }),
    ("project right without a reservoir", |b, rng| {
        edit_right(b, rng, of_kind(PROJECT), |r| r.reservoir = NONE)
    }),
    ("storage right with a reservoir one too high", |b, rng| {
        let count = b.reservoirs.len() as u8;
        edit_right(b, rng, of_kind(STORAGE), |r| r.reservoir = count)
    }),
    ("storage right without a reservoir", |b, rng| {
        edit_right(b, rng, of_kind(STORAGE), |r| r.reservoir = NONE)
    }),
    ("storage right below its reservoir", |b, rng| {
        let last = b.stations.len() as u8 - 1;
        edit_right(b, rng, |r| r.kind == STORAGE && r.row < last, |r| r.row = last)
    }),
    ("storage right above its reservoir", |b, rng| {
        edit_right(b, rng, |r| r.kind == STORAGE && r.row > 0, |r| r.row -= 1)
    }),
    ("project right off its reservoir's path", |b, rng| {
        let (stations, lakes) = (b.stations.clone(), b.reservoirs.clone());
        // The last row that the lake's water does not pass.
        let off = |r: &Right| {
            let lake_row = lakes.get(r.reservoir as usize)?.row as usize;
            let downstream = (lake_row < stations.len()).then(|| path(&stations, lake_row))?;
            (0..stations.len()).rev().find(|row| !downstream.contains(row))
        };
        edit_right(
            b,
            rng,
            |r| r.kind == PROJECT && r.points == 0 && off(r).is_some(),
            |r| {
                r.row = off(r).unwrap() as u8;
            },
        )
    }),
    ("storage right with limit 0", |b, rng| edit_right(b, rng, of_kind(STORAGE), |r| r.limit = 0)),
    ("storage right with limit 2,000,000,001", |b, rng| {
        edit_right(b, rng, of_kind(STORAGE), |r| r.limit = 2_000_000_001)
    }),
    ("direct right with a limit", |b, rng| edit_right(b, rng, of_kind(DIRECT), |r| r.limit = 1)),
    ("project right with a limit", |b, rng| edit_right(b, rng, of_kind(PROJECT), |r| r.limit = 1)),
    ("instream right with a limit", |b, rng| {
        edit_right(b, rng, of_kind(INSTREAM), |r| r.limit = 1)
    }),
];
