//! Ways to spoil a call.

use crate::compare::Call;
use river_tests::damage::*;
use river_tests::engine::board::{BOARD, SHORT};
use river_tests::engine::records::MOST_RUNOFF;
use river_tests::generate::{River, Rng};

/// Spoils a call, mostly so that it is refused.
type Spoil = fn(&mut Call, &River, &mut Rng);

pub const SPOILS: &[(&str, Spoil)] = &[
    ("file damaged at random", |call, _, rng| call.file = random_damage(rng, &call.file)),
    ("file that breaks a rule", |call, river, rng| {
        let mut basin = river.basin.clone();
        let &(_, _, edit) = rng.pick(&BROKEN);
        if edit(&mut basin, rng).is_some() {
            call.file = basin.encode();
        }
    }),
    ("runoff too short", |call, _, rng| {
        let rows = call.runoff.len();
        call.runoff.truncate(rng.below(rows.max(1)));
    }),
    ("runoff too long", |call, _, rng| {
        let more = *rng.pick(&[1, 2, 64]);
        call.runoff.resize(call.runoff.len() + more, 0);
    }),
    ("runoff over its limit", |call, _, rng| {
        for _ in 0..*rng.pick(&[1, 1, 2, 5]) {
            let over = *rng.pick(&[MOST_RUNOFF + 1, 1 << 31, u32::MAX]);
            let rows = call.runoff.len();
            if rows > 0 {
                call.runoff[rng.below(rows)] = over;
            }
        }
    }),
    ("board too short", |call, _, rng| {
        call.board.truncate(*rng.pick(&[0, 1, 500, SHORT, BOARD - 1]))
    }),
    ("board too long", |call, _, rng| call.board.resize(*rng.pick(&[BOARD + 1, 2 * BOARD]), 0)),
    ("impossible board", |call, river, rng| {
        if call.board.len() == BOARD {
            let &(_, edit) = rng.pick(IMPOSSIBLE);
            impossible_board(edit, &river.basin, &mut call.board, rng);
        }
    }),
    ("report too short", |call, river, rng| {
        let length = river.basin.report_length();
        call.report.truncate(*rng.pick(&[0, length / 2, length - 1, length - 1]));
    }),
];
