//! Long lists of months against the tally, from the fresh board and from any that is
//! possible. The tally asserts the water sum, the reservoirs' accounts and the bounds of
//! available flow in every call; here the engine's answer, board and report are compared
//! with what the tally keeps, and after every call, refused or not, the short months of
//! every right. Lists with years of a book among the months are in `years`, those with calls on
//! a store too in `stores`, and what a trial leaves behind in `trials`.

mod compare;
mod shelf;
mod stores;
mod trials;
mod years;

use compare::{compare_board, compare_report, compare_short_months, Compared, Start};
use river_tests::engine::month;
use river_tests::engine::records::MOST_RUNOFF;
use river_tests::engine::tally::Tally;
use river_tests::generate::{any_river, river_of, River, Rng, Size};

/// Makes a third of the calls one to be refused.
fn spoil(rng: &mut Rng, runoff: &mut Vec<u32>, report: &mut Vec<u64>, length: usize) {
    match rng.below(12) {
        0 => report.truncate(length.saturating_sub(1)),
        1 => runoff.push(0),
        2 => {
            let row = rng.below(runoff.len());
            runoff[row] = MOST_RUNOFF + 1;
        }
        3 => {
            runoff.pop();
        }
        _ => (),
    }
}

/// Runs a list of calls, some of them refused, through engine and tally.
fn compare_list(
    rng: &mut Rng,
    river: &River,
    mut at: Start,
    calls: usize,
    compared: &mut Compared,
) {
    let length = river.basin.report_length();
    for _ in 0..calls {
        let (mut runoff, mut report) = (river.runoff(rng), vec![77; length + rng.below(3)]);
        spoil(rng, &mut runoff, &mut report, length);
        let board_before = at.board.clone();
        let report_before = report.clone();
        let answer = month(&river.file, &runoff, &mut at.board, &mut report);
        assert_eq!(at.tally.call(&runoff, report.len()), answer);
        compared.calls += 1;
        compare_short_months(river, &at, compared);
        if answer.0 != 0 {
            assert_eq!(at.board, board_before, "a refused call changes nothing");
            assert_eq!(report, report_before, "a refused call changes nothing");
            compared.refused += 1;
            continue;
        }
        compare_board(&at.tally, &at.board);
        compare_report(&at.tally, at.tally.months.last().unwrap(), &report, compared);
        assert!(report[length..].iter().all(|&number| number == 77));
        compared.marked += at.tally.marks.iter().filter(|&&mark| mark).count();
    }
}

fn compare_many(
    seeds: std::ops::Range<u64>,
    size: Option<Size>,
    fresh: bool,
    calls: usize,
) -> Compared {
    let mut compared = Compared::default();
    for seed in seeds {
        let rng = &mut Rng::new(seed);
        let river = match size {
            Some(size) => river_of(rng, size),
            None => any_river(rng),
        };
        let start = Start::of(&river, rng, fresh);
        compare_board(&start.tally, &start.board);
        compare_short_months(&river, &start, &mut compared);
        compare_list(rng, &river, start, calls, &mut compared);
    }
    println!(
        "{} calls, {} refused, {} with deep loss, {} marked lakes, grants by reason {:?}, {} rights \
         asked for short months",
        compared.calls,
        compared.refused,
        compared.deep,
        compared.marked,
        compared.reasons,
        compared.asked()
    );
    compared
}

#[test]
fn small_rivers_over_years() {
    let compared = compare_many(10_000..13_000, Some(Size::Small), true, 40);
    // The lists are worth something only if all of this happens in them.
    assert!(compared.refused > 1000);
    assert!(compared.marked > 1000);
    assert!(compared.deep > 10_000);
    assert!(compared.reasons.iter().all(|&times| times > 100));
    assert!(compared.short_months.iter().all(|&times| times > 100), "{:?}", compared.short_months);
}

#[test]
fn small_rivers_from_possible_boards() {
    let compared = compare_many(13_000..15_000, Some(Size::Small), false, 20);
    assert!(compared.refused > 1000);
    assert!(compared.reasons.iter().all(|&times| times > 100));
    assert!(compared.short_months.iter().all(|&times| times > 100), "{:?}", compared.short_months);
}

#[test]
fn rivers_of_all_sizes_over_years() {
    let compared = compare_many(20_000..20_600, None, true, 40);
    assert!(compared.deep > 1000);
    assert!(compared.reasons.iter().all(|&times| times > 1000));
}

#[test]
fn rivers_of_all_sizes_from_possible_boards() {
    let compared = compare_many(21_000..21_400, None, false, 20);
    assert!(compared.deep > 1000);
    assert!(compared.reasons.iter().all(|&times| times > 1000));
}

#[test]
fn rivers_at_the_limits() {
    let compared = compare_many(30_000..30_010, Some(Size::Limit), true, 30);
    assert!(compared.deep > 50);
    assert!(compared.reasons.iter().all(|&times| times > 100));
}

#[test]
fn a_refused_file_answers_every_call() {
    let rng = &mut Rng::new(5);
    let river = any_river(rng);
    let mut basin = river.basin.clone();
    basin.stations[0].zeros[2] = 1;
    let mut tally = Tally::new(&basin.encode());
    assert_eq!(tally.call(&river.runoff(rng), 0), (2, 0));
    assert_eq!(tally.call(&[], 5000), (2, 0));
    assert!(tally.months.is_empty());
}
