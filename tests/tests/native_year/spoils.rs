//! Ways to spoil a run of a year.

use crate::compare::{Ask, Shelf};
use river_tests::damage::*;
use river_tests::engine::board::{BOARD, SHORT};
use river_tests::engine::book::encode;
use river_tests::generate::Rng;

/// Spoils a run, mostly so that it is refused.
type Spoil = fn(&mut Ask, &Shelf, &mut Rng);

pub const SPOILS: &[(&str, Spoil)] = &[
    ("file damaged at random", |ask, _, rng| ask.file = random_damage(rng, &ask.file)),
    ("file that breaks a rule", |ask, shelf, rng| {
        let mut basin = shelf.river.basin.clone();
        let &(_, _, edit) = rng.pick(&BROKEN);
        if edit(&mut basin, rng).is_some() {
            ask.file = basin.encode();
        }
    }),
    ("book damaged at random", |ask, _, rng| ask.book = random_book_damage(rng, &ask.book)),
    ("book that breaks its layout", |ask, shelf, rng| {
        let all = broken_books(&shelf.years, shelf.river.basin.stations.len());
        ask.book = rng.pick(&all).1.clone();
    }),
    ("any year", |ask, _, rng| {
        let near = ask.year.wrapping_add(*rng.pick(&[1, u32::MAX, 1 << 8, 1 << 16, 1 << 31]));
        ask.year = *rng.pick(&[0, 1799, 1800, 2200, 2201, u32::MAX, near, near, near]);
    }),
    ("runoff over its limit", |ask, shelf, rng| {
        let mut years = shelf.years.clone();
        let month = rng.below(12);
        years.iter_mut().for_each(|year| _ = shelf.river.put_over(rng, year, month));
        ask.book = encode(&years);
    }),
    ("board too short", |ask, _, rng| {
        ask.board.truncate(*rng.pick(&[0, 1, 500, SHORT, BOARD - 1]))
    }),
    ("board too long", |ask, _, rng| ask.board.resize(*rng.pick(&[BOARD + 1, 2 * BOARD]), 0)),
    ("impossible board", |ask, shelf, rng| {
        if ask.board.len() == BOARD {
            let &(_, edit) = rng.pick(IMPOSSIBLE);
            impossible_board(edit, &shelf.river.basin, &mut ask.board, rng);
        }
    }),
    ("list too short", |ask, shelf, rng| {
        let (enough, one) = (shelf.enough(), shelf.enough() / 12);
        ask.reports.truncate(*rng.pick(&[0, 1, one, 11 * one, enough - 1, enough - 1]));
    }),
];
