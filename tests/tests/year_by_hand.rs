//! A year on a small river, worked out by hand, asked of every engine (02, No. 4).
//!
//! One station, number 7. A direct right of 10 returns half of what it has a month later;
//! a storage right of 8, at most 20 a year, fills a lake of 30 that begins with 5; a
//! project right of 4 has that lake behind it. Nothing evaporates.

use river_tests::calls::by_each;
use river_tests::engine::board::{due, BOARD, NEXT_MONTH, SHORT, STORAGES, TAKEN};
use river_tests::engine::book::{encode, WaterYear};
use river_tests::engine::records::{Basin, MOST_RUNOFF};
use river_tests::engine::store::STORE_BYTES;
use river_tests::examples::*;
use river_tests::run::Run;

const NO_AREA: [(u32, u32); 4] = [(0, 0), (1, 0), (2, 0), (3, 0)];

fn small_river() -> Basin {
    Basin {
        stations: stations(&[(7, 1)]),
        reservoirs: vec![reservoir(0, 30, 5, NO_AREA)],
        patterns: vec![pattern(&[0, 100])],
        rights: vec![
            direct(1, 19000101, 0, 10).returning(50, 0, &[(0, 100)]),
            storage(2, 19100101, 0, 0, 8, 20),
            project(3, 19200101, 0, 0, 4),
        ],
    }
}

const RUNOFF: [u32; 12] = [12, 3, 30, 0, 10, 10, 10, 10, 10, 10, 0, 20];

/// What each month brings, from the fresh board on.
const MONTHS: [Month; 12] = [
    // 12 flow; 10 are taken, of which 5 return in November, and 2 of 8 are stored. The
    // storage right is short and calls the project right, which has its 4 from the lake.
    ([[10, 0, 0, 0], [2, 0, 2, 7], [0, 4, 0, 0]], 0, 3, 5),
    // 3 and 5 flow, and the first right is short: it calls both others. The lake has 3.
    ([[8, 0, 2, 7], [0, 0, 1, 7], [0, 3, 3, 7]], 0, 0, 4),
    // 30 and 4: enough for all, 12 flow on.
    ([[10, 0, 0, 0], [8, 0, 0, 0], [4, 0, 0, 0]], 12, 8, 5),
    // 5 flow; of 5, 2 are consumed and 3 return.
    ([[5, 0, 2, 7], [0, 0, 1, 7], [0, 4, 0, 0]], 0, 4, 3),
    // 10 and 3: 3 are stored.
    ([[10, 0, 0, 0], [3, 0, 2, 7], [0, 4, 0, 0]], 0, 3, 5),
    // 10 and 5: the limit leaves 20 - 13 to be stored, and 5 are there.
    ([[10, 0, 0, 0], [5, 0, 2, 7], [0, 4, 0, 0]], 0, 4, 5),
    // The limit leaves 2, so that 3 are there for the project right, and 1 from the lake.
    ([[10, 0, 0, 0], [2, 0, 0, 0], [3, 1, 0, 0]], 0, 5, 5),
    // Nothing more is stored in this year.
    ([[10, 0, 0, 0], [0, 0, 0, 0], [4, 0, 0, 0]], 1, 5, 5),
    ([[10, 0, 0, 0], [0, 0, 0, 0], [4, 0, 0, 0]], 1, 5, 5),
    ([[10, 0, 0, 0], [0, 0, 0, 0], [4, 0, 0, 0]], 1, 5, 5),
    // 5 flow: the first right is short and calls the project right.
    ([[5, 0, 2, 7], [0, 0, 0, 0], [0, 4, 0, 0]], 0, 1, 3),
    // 20 and 3.
    ([[10, 0, 0, 0], [0, 0, 0, 0], [4, 0, 0, 0]], 9, 1, 5),
];

/// Grants; outflow; what is stored and what is due afterwards.
type Month = ([[u64; 4]; 3], u64, u64, u64);

fn book() -> Vec<u8> {
    let year = |year, runoff: [u32; 12]| WaterYear { year, runoff: runoff.to_vec() };
    let mut over_in_may = RUNOFF;
    over_in_may[7] = MOST_RUNOFF + 1;
    // Months that are over are not looked at.
    let mut over_before_march = RUNOFF;
    over_before_march[..5].fill(u32::MAX);
    encode(&[
        year(1964, [0; 12]),
        year(1965, RUNOFF),
        year(1966, over_in_may),
        year(1967, over_before_march),
    ])
}

/// The months of a year's run are these, from the month on with which it began.
fn assert_months(run: &mut Run, first: usize) {
    for (call, (grants, outflow, ..)) in MONTHS[first..].iter().enumerate() {
        run.show(call);
        assert_eq!(run.grants(), grants, "call {call}");
        assert_eq!((run.flow(), run.available()), (vec![*outflow], vec![*outflow]), "call {call}");
        assert_eq!(run.evaporation(), [0]);
    }
}

/// The board after September: 1 is stored, 20 were taken, 5 return in October. The first right
/// was short in November, January and August; the second up to March, but for December; the
/// third in November.
fn assert_after_september(board: &[u64]) {
    let mut expected = [0; BOARD];
    expected[STORAGES] = 1;
    expected[TAKEN + 1] = 20;
    expected[due(0, 1)] = 5;
    expected[SHORT] = 1 << 1 | 1 << 3 | 1 << 10;
    expected[SHORT + 1] = 1 << 0 | 1 << 1 | 1 << 3 | 1 << 4 | 1 << 5;
    expected[SHORT + 2] = 1 << 1;
    assert_eq!(board, expected);
}

#[test]
fn a_whole_year() {
    by_each(|calls| {
        let mut run = Run::of(calls, &small_river());
        assert_eq!(run.year(&book(), 1965), (0, 12));
        assert_months(&mut run, 0);
        assert_after_september(&run.board);
    });
}

/// The same months by month calls up to any of them, and the rest by a run.
#[test]
fn the_rest_of_a_year() {
    by_each(|calls| {
        for m in 0..12 {
            let mut run = Run::of(calls, &small_river());
            for (month, (grants, _, stored, due)) in MONTHS[..m].iter().enumerate() {
                run.month(&[RUNOFF[month]]);
                assert_eq!(run.grants(), grants);
                assert_eq!(run.stock(), [0, 0, *stored, *due]);
            }
            assert_eq!(run.board[NEXT_MONTH], m as u64);
            assert_eq!(run.year(&book(), 1965), (0, 12 - m as u64));
            assert_months(&mut run, m);
            assert_after_september(&run.board);
        }
    });
}

#[test]
fn runoff_over_its_limit_counts_from_the_boards_month_on() {
    by_each(|calls| {
        for m in 0..12 {
            let mut run = Run::of(calls, &small_river());
            for runoff in &RUNOFF[..m] {
                run.month(&[*runoff]);
            }
            let rest = (0, 12 - m as u64);
            // May's sheet, and those before March.
            assert_eq!(run.year(&book(), 1966), if m <= 7 { (8, 0) } else { rest });
            if m <= 7 {
                assert_eq!(run.year(&book(), 1967), if m < 5 { (8, 0) } else { rest });
            }
            if m < 5 {
                assert_eq!(run.year(&book(), 1965), rest);
            }
            assert_months(&mut run, m);
            assert_after_september(&run.board);
        }
    });
}

/// The second year begins where the first one ended, and October clears what was taken.
#[test]
fn a_year_after_a_year() {
    by_each(|calls| {
        let mut run = Run::of(calls, &small_river());
        assert_eq!(run.year(&book(), 1965), (0, 12));
        assert_eq!(run.year(&book(), 1963), (10, 0));
        assert_eq!(run.year(&book(), 1964), (0, 12));
        // Nothing rains. 5 return in October, and the first right has them: 2 are consumed
        // and 3 return in November. Of these 2 return, then 1; and 1 returns whole, since
        // half of it, rounded down, is nothing.
        let taken = [5, 3, 2, 1, 1, 1, 1, 1, 1, 1, 1, 1];
        for (call, taken) in taken.into_iter().enumerate() {
            run.show(call);
            // 1 is in the lake, and the project right has it in October.
            let from_lake = (call == 0) as u64;
            let project = [0, from_lake, 3, 7];
            assert_eq!(run.grants(), [[taken, 0, 2, 7], [0, 0, 1, 7], project], "{call}");
            assert_eq!(run.flow(), [0]);
        }
        assert_eq!(run.stock(), [0, 0, 0, 1]);
        assert_eq!(run.board[TAKEN + 1], 0);
    });
}

/// From any month on a dry year is tried, by month calls and by a run; then the month is
/// recalled, and the year goes on as if nothing had been tried (02, No. 7).
#[test]
fn a_dry_year_that_is_tried() {
    by_each(|calls| {
        let mut store = vec![0; STORE_BYTES];
        let mut run = Run::of(calls, &small_river());
        for m in 0..12 {
            run.save(&mut store, b"MARCH\0\0\0");
            let (saved, stock) = (run.board.clone(), run.stock());
            for _ in 0..m {
                run.month(&[0]);
            }
            assert_eq!(run.year(&book(), 1964).0, 0);
            assert!(run.board != saved);
            run.recall(&store, b"MARCH\0\0\0");
            assert_eq!((&run.board, run.stock()), (&saved, stock));
            assert_eq!(run.year(&book(), 1965), (0, 12 - m as u64));
            assert_months(&mut run, m);
            assert_after_september(&run.board);
            run.recall(&store, b"MARCH\0\0\0");
            run.month(&[RUNOFF[m]]);
            assert_eq!(run.grants(), MONTHS[m].0);
        }
        assert_after_september(&run.board);
    });
}
