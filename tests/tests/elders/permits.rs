//! New permits at the end of a list. On whatever board: the month that is accepted without them
//! is accepted with them, and every right that was there has the line that it had.

use crate::compare::line;
use crate::pairs::{any_amount, any_board};
use river_tests::calls::by_each;
use river_tests::engine::records::{Basin, MOST_RIGHTS};
use river_tests::generate::{any_river, kinds_of, younger_rights, Rng};

const RIVERS: u64 = 1000;

/// A basin with rights after its last, of any kind.
fn with_new_permits(rng: &mut Rng, basin: &Basin) -> Basin {
    let room = MOST_RIGHTS - basin.rights.len();
    let count = if rng.chance(10) { room } else { rng.below(room.min(20) + 1) };
    let most = any_amount(rng);
    let mut larger = basin.clone();
    larger.rights.extend(younger_rights(rng, basin, kinds_of(basin), count, most));
    larger
}

#[test]
fn new_permits_change_no_line_on_any_board() {
    by_each(|calls| {
        let (mut lines, mut permits) = (0, 0);
        for seed in 0..RIVERS {
            let rng = &mut Rng::new(seed);
            let river = any_river(rng);
            let larger = with_new_permits(rng, &river.basin);
            let (board, runoff) = (any_board(rng, &river), river.runoff(rng));
            let [before, after] = [&river.basin, &larger].map(|basin| {
                let mut report = vec![7; basin.report_length()];
                let file = basin.encode();
                let answer = (calls.month)(&file, &runoff, &mut board.clone(), &mut report);
                assert_eq!(answer.0, 0, "seed {seed}: refused");
                report
            });
            let rights = river.basin.rights.len();
            for right in 0..rights {
                assert_eq!(line(&before, right), line(&after, right), "seed {seed}, right {right}");
            }
            lines += rights;
            permits += larger.rights.len() - rights;
        }
        println!("{permits} new permits in {RIVERS} basins, {lines} lines as they were");
        assert!(lines > 10_000 && permits > 10_000, "{lines} {permits}");
    });
}
