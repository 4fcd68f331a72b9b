//! The static library's month call against the plain engine: lists of calls over
//! years on random rivers, refused calls among them, and every damaged file and
//! impossible board. Answer, whole board and whole report are compared. Feature
//! `native`.
//!
//! `RIVER_SEED` is the first seed, `RIVER_CALLS` how many calls the lists of months
//! are to have. A list depends on its seed alone, so `RIVER_SEED=n RIVER_CALLS=1`
//! runs the one that a message names.

mod compare;
mod spoils;

use compare::{Call, Compared};
use river_tests::damage::*;
use river_tests::engine::board::*;
use river_tests::engine::fresh;
use river_tests::engine::records::*;
use river_tests::engine::report;
use river_tests::generate::{any_river, river, river_of, River, Rng, Size, Volume, Water};
use river_tests::seeds::{first_seed, from_environment};
use spoils::SPOILS;
use std::fmt::Display;

const CALLS: usize = 400_000;

// ---- lists of months ----

/// The river of a list: every size, the largest file among them.
fn river_of_list(seed: u64, rng: &mut Rng) -> River {
    match seed % 32 {
        0 => river(&mut Rng::new(20736), Size::Limit, Volume::Usual, Water::Even),
        1 => river_of(rng, Size::Limit),
        2 => river_of(rng, Size::One),
        _ => any_river(rng),
    }
}

/// The fresh board, or any possible one, now and then an extreme one.
fn first_board(river: &River, rng: &mut Rng) -> Vec<u64> {
    let mut board = vec![0; BOARD];
    if rng.chance(40) {
        assert_eq!(fresh(&river.file, &mut board), (0, 0));
        return board;
    }
    board = river.possible_board(rng);
    if rng.chance(30) {
        let &(_, edit) = rng.pick(POSSIBLE);
        edit(&river.basin, &mut board);
    }
    board
}

/// Storage rights that would have stored something but for a filled mark, followed
/// from right to right by what the report says they were granted.
fn blocked_by_marks(basin: &Basin, before: &[u64], report: &[u64], at: &dyn Display) -> usize {
    let m = before[NEXT_MONTH] as usize;
    let october = m == 0; // what the year before took and marked is gone
    let mut marks = if october { 0 } else { before[MARKS] };
    let mut storages = before[STORAGES..MARKS].to_vec();
    let mut blocked = 0;
    for (place, right) in basin.rights.iter().enumerate() {
        let (river, store) =
            (report[report::from_river(place)], report[report::from_storage(place)]);
        let lake = right.reservoir as usize;
        if right.kind == PROJECT {
            storages[lake] -= store;
        }
        if right.kind != STORAGE {
            continue;
        }
        let capacity = basin.reservoirs[lake].capacity as u64;
        if marks >> lake & 1 == 1 {
            assert_eq!(river, 0, "{at}: right {place} stores under a mark");
            let taken = if october { 0 } else { before[TAKEN + place] };
            let asks = right.months >> m & 1 == 1 && right.amounts[m] > 0;
            blocked += (asks && taken < right.limit as u64 && storages[lake] < capacity) as usize;
        }
        storages[lake] += river;
        if river > 0 && storages[lake] == capacity {
            marks |= 1 << lake;
        }
    }
    blocked
}

/// What happened in the lists, beside the comparison.
#[derive(Default, Debug)]
struct Met {
    lists: usize,
    /// Lists of at least 36 accepted months.
    long_lists: usize,
    /// Storage rights that would have stored something but for a mark.
    blocked: usize,
    /// Calls spoilt in each way.
    spoilt: [usize; SPOILS.len()],
}

/// A list of calls on one river, each month on the board that the month before left.
fn compare_list(seed: u64, compared: &mut Compared, met: &mut Met) {
    let rng = &mut Rng::new(seed);
    let river = river_of_list(seed, rng);
    let mut board = first_board(&river, rng);
    let mut months = 0;
    for number in 0..*rng.pick(&[15, 40, 50, 75]) {
        let mut call = Call::of(&river, &board, rng);
        let mut at = format!("RIVER_SEED={seed}, call {number}");
        let spoils = if rng.chance(20) { *rng.pick(&[1, 1, 1, 2]) } else { 0 };
        for _ in 0..spoils {
            let which = rng.below(SPOILS.len());
            let (name, spoil) = SPOILS[which];
            spoil(&mut call, &river, rng);
            at += &format!(", {name}");
            met.spoilt[which] += 1;
        }
        let answer = compared.compare(&mut call, &at);
        if spoils == 0 {
            assert_eq!(answer.0, 0, "{at}: refused");
            met.blocked += blocked_by_marks(&river.basin, &board, &call.report, &at);
            board = call.board;
            months += 1;
        }
    }
    met.lists += 1;
    met.long_lists += (months >= 36) as usize;
}

#[test]
fn lists_of_months() {
    let calls = from_environment("RIVER_CALLS").map_or(CALLS, |calls| calls as usize);
    let mut compared = Compared::default();
    let mut met = Met::default();
    let mut seed = first_seed();
    while compared.calls < calls {
        compare_list(seed, &mut compared, &mut met);
        seed += 1;
    }
    compared.print("lists of months");
    println!(
        "    {} lists, seeds {} to {}, {} of them with 36 months or more; {} times a mark kept a \
         storage right from storing",
        met.lists,
        first_seed(),
        seed - 1,
        met.long_lists,
        met.blocked
    );
    for ((name, _), times) in SPOILS.iter().zip(&met.spoilt) {
        println!("    {times} calls: {name}");
    }
    // A short run by hand need not meet everything.
    if calls >= CALLS {
        assert!(compared.numbers[0] >= 50_000, "{compared:?}");
        assert!(compared.numbers.iter().all(|&times| times > 500), "{compared:?}");
        assert!(compared.reasons.iter().all(|&times| times > 10_000), "{compared:?}");
        assert!(met.long_lists > 1000 && met.blocked > 10_000, "{met:?}");
        assert!(compared.deep > 50_000, "{compared:?}");
        assert!(met.spoilt.iter().all(|&times| times > 5000), "{met:?}");
    }
}

// ---- every damaged file, every impossible board ----

/// A call on a damaged file, with lists that fit the sound one.
fn damaged_call(river: &River, file: Vec<u8>, rng: &mut Rng) -> Call {
    let board = river.possible_board(rng);
    Call { file, ..Call::of(river, &board, rng) }
}

#[test]
fn damaged_files() {
    let first = first_seed();
    let mut compared = Compared::default();
    for seed in first..first + 60 {
        let rng = &mut Rng::new(seed);
        let river = any_river(rng);
        for &(name, number, edit) in BROKEN.iter() {
            let mut basin = river.basin.clone();
            let Some(place) = edit(&mut basin, rng) else { continue };
            let at = format!("RIVER_SEED={seed}, {name}");
            let mut call = damaged_call(&river, basin.encode(), rng);
            assert_eq!(compared.compare(&mut call, &at), (number, place as u64), "{at}");
        }
        for (name, file) in not_packed(&river.basin) {
            let at = format!("RIVER_SEED={seed}, {name}");
            let mut call = damaged_call(&river, file, rng);
            assert_eq!(compared.compare(&mut call, &at), (1, 0), "{at}");
        }
        for time in 0..150 {
            let file = random_damage(rng, &river.file);
            let mut call = damaged_call(&river, file, rng);
            compared.compare(&mut call, &format!("RIVER_SEED={seed}, damage {time}"));
        }
    }
    compared.print("damaged files");
    assert!(compared.numbers[1..=5].iter().sum::<usize>() >= 5000, "{compared:?}");
    assert!(compared.numbers[1..=5].iter().all(|&times| times > 200), "{compared:?}");
}

/// A year on files with one legal value at its limit each.
#[test]
fn extreme_files() {
    let first = first_seed();
    let mut compared = Compared::default();
    for seed in first..first + 60 {
        let rng = &mut Rng::new(seed);
        let base = if seed == first { rich_base() } else { any_river(rng).basin };
        for &(name, edit) in LEGAL {
            let mut basin = base.clone();
            if edit(&mut basin, rng).is_none() {
                continue;
            }
            let (rows, length) = (basin.stations.len(), basin.report_length());
            let (file, runoff) = (basin.encode(), vec![0; rows]);
            let mut call = Call { file, runoff, board: vec![0; BOARD], report: vec![0; length] };
            assert_eq!(fresh(&call.file, &mut call.board), (0, 0));
            for month in 0..12 {
                call.runoff.fill_with(|| *rng.pick(&[0, 90, 3000, MOST_RUNOFF]));
                let at = format!("RIVER_SEED={seed}, {name}, month {month}");
                assert_eq!(compared.compare(&mut call, &at).0, 0, "{at}");
            }
        }
    }
    compared.print("extreme files");
    assert!(compared.reasons.iter().all(|&times| times > 1000), "{compared:?}");
}

#[test]
fn impossible_boards() {
    let first = first_seed();
    let mut compared = Compared::default();
    let mut by_clause = vec![0; IMPOSSIBLE.len()];
    for seed in first..first + 300 {
        let rng = &mut Rng::new(seed);
        let river = any_river(rng);
        let possible = river.possible_board(rng);
        for (clause, &(name, edit)) in IMPOSSIBLE.iter().enumerate() {
            let at = format!("RIVER_SEED={seed}, {name}");
            let mut call = Call::of(&river, &possible, rng);
            if impossible_board(edit, &river.basin, &mut call.board, rng).is_none() {
                continue;
            }
            // Of two numbers the lower is given: 7 also where 8 applies.
            if rng.chance(30) {
                call.runoff[0] = MOST_RUNOFF + 1;
            }
            assert_eq!(compared.compare(&mut call, &at), (7, 0), "{at}");
            by_clause[clause] += 1;
        }
        for &(name, edit) in POSSIBLE {
            let at = format!("RIVER_SEED={seed}, {name}");
            let mut call = Call::of(&river, &possible, rng);
            edit(&river.basin, &mut call.board);
            assert_eq!(compared.compare(&mut call, &at).0, 0, "{at}");
        }
    }
    compared.print("impossible boards");
    assert!(by_clause.iter().all(|&times| times > 50), "{by_clause:?}");
}
