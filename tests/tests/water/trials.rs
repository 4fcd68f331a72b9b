//! A dry spring is tried, then March is recalled: what is run from there is told, left and
//! reported as if nothing had been tried (02, No. 7). By each engine, and the tally that starts
//! on the recalled board.

use super::compare::{compare_board, compare_report, Compared};
use river_tests::calls::{by_each, Calls};
use river_tests::engine::book::encode;
use river_tests::engine::store::STORE_BYTES;
use river_tests::engine::tally::Tally;
use river_tests::engine::Answer;
use river_tests::generate::{any_river, any_store, River, Rng, NAMES};

/// Of each month its answer, the board that it leaves and its report.
type Told = Vec<(Answer, Vec<u64>, Vec<u64>)>;

/// Runs these sheets, the last of them over its limit, say, or too long.
fn run(calls: &Calls, river: &River, sheets: &[Vec<u32>], board: &mut [u64]) -> Told {
    let month = |sheet: &Vec<u32>| {
        let mut report = vec![0; river.basin.report_length()];
        let answer = (calls.month)(&river.file, sheet, board, &mut report);
        (answer, board.to_vec(), report)
    };
    sheets.iter().map(month).collect()
}

/// The tally from this board on has the same months.
fn compare_with_tally(river: &River, board: &[u64], sheets: &[Vec<u32>], told: &Told) {
    let mut tally = Tally::on_board(&river.file, board);
    for (sheet, (answer, board, report)) in sheets.iter().zip(told) {
        assert_eq!(tally.call(sheet, report.len()), *answer);
        compare_board(&tally, board);
        if answer.0 == 0 {
            compare_report(&tally, tally.months.last().unwrap(), report, &mut Compared::default());
        }
    }
}

/// Months, some of them refused.
fn sheets(river: &River, rng: &mut Rng) -> Vec<Vec<u32>> {
    let sheet = |rng: &mut Rng| {
        let mut sheet = river.runoff(rng);
        match rng.below(10) {
            0 => sheet.push(0),
            1 => sheet[0] = u32::MAX,
            _ => (),
        }
        sheet
    };
    (0..rng.between(1, 14)).map(|_| sheet(rng)).collect()
}

/// Months, years and saves under other names, or the fresh board.
fn try_out(calls: &Calls, river: &River, store: &mut [u8], board: &mut [u64], rng: &mut Rng) {
    let dry = vec![vec![0; river.basin.stations.len()]; rng.below(5)];
    run(calls, river, &dry, board);
    run(calls, river, &sheets(river, rng), board);
    assert_eq!((calls.save)(store, &NAMES[1], board), (0, 0));
    let years = river.book(rng, 1);
    let mut reports = vec![0; 12 * river.basin.report_length()];
    let book = encode(&years);
    assert_eq!((calls.run_year)(&river.file, &book, years[0].year, board, &mut reports).0, 0);
    assert_eq!((calls.save)(store, &NAMES[2], board), (0, 0));
    if rng.chance(30) {
        assert_eq!((calls.fresh)(&river.file, board), (0, 0));
    }
    if rng.chance(50) {
        assert_eq!((calls.drop_name)(store, &NAMES[1]), (0, 0));
    }
}

#[test]
fn a_trial_leaves_no_trace() {
    by_each(|calls| {
        let mut months = 0;
        for seed in 0..300 {
            let rng = &mut Rng::new(seed);
            let river = any_river(rng);
            let mut board = river.possible_board(rng);
            // Any bytes, but no names.
            let mut store = any_store(rng);
            store[..32].fill(0);
            assert_eq!((calls.save)(&mut store, &NAMES[0], &board), (0, 0));
            let (march, sheets) = (board.clone(), sheets(&river, rng));
            let told = run(calls, &river, &sheets, &mut board);
            compare_with_tally(&river, &march, &sheets, &told);
            for _ in 0..3 {
                try_out(calls, &river, &mut store, &mut board, rng);
                assert_eq!((calls.recall)(&store, &NAMES[0], &mut board), (0, 0));
                assert!(board == march, "seed {seed}: another board is recalled");
                assert!(run(calls, &river, &sheets, &mut board) == told, "seed {seed}: a trace");
                months += sheets.len();
            }
        }
        println!("{months} months run again after a trial");
    });
}

/// A board of one basin is recalled for another, of which it need not be a possible one: what
/// its month call then says, the right one's and the other's, follows from the board alone.
#[test]
fn a_store_knows_no_basin() {
    by_each(|calls| {
        let mut refused = 0;
        for seed in 0..200 {
            let rng = &mut Rng::new(seed);
            let (one, other) = (any_river(rng), any_river(rng));
            let (mut store, board) = (vec![0; STORE_BYTES], one.possible_board(rng));
            assert_eq!((calls.save)(&mut store, &NAMES[3], &board), (0, 0));
            for river in [&one, &other] {
                let (mut recalled, mut direct) = (vec![77; board.len()], board.clone());
                assert_eq!((calls.recall)(&store, &NAMES[3], &mut recalled), (0, 0));
                assert!(recalled == board);
                let sheets = [river.runoff(rng)];
                let told = run(calls, river, &sheets, &mut recalled);
                assert!(told == run(calls, river, &sheets, &mut direct));
                assert!([0, 7].contains(&told[0].0 .0));
                refused += (told[0].0 .0 == 7) as usize;
            }
        }
        assert!(refused > 50, "{refused}");
    });
}
