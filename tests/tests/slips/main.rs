//! Each deliberately wrong engine is told apart from the right one by the
//! generated inputs. Prints the table that has to stand in README.md:
//! `cargo test --release --test slips -- --nocapture`.

mod stores;
mod years;

use river_tests::damage::*;
use river_tests::engine::board::{self, BOARD, SHORT};
use river_tests::engine::check::judge;
use river_tests::engine::month;
use river_tests::engine::network::Network;
use river_tests::engine::records::{MOST_RIGHTS, MOST_RUNOFF};
use river_tests::engine::sections::find_sections;
use river_tests::engine::short_months::short_months;
use river_tests::engine::slip::{Faithful, Slipped, Telling, ALL};
use river_tests::engine::{self, check, fresh, report, stock};
use river_tests::generate::{any_river, largest, River, Rng};
use stores::{asked, find_in_stores, lists};
use years::{asks, find_in_years};

/// A difference between the right engine and a wrong one: where it was seen.
type Seen = Option<&'static str>;

/// Files for the check: one rule broken, extreme legal values, not packed.
fn files() -> Vec<Vec<u8>> {
    let rng = &mut Rng::new(77);
    let mut files = vec![largest().encode()];
    let random = (100..140).map(|seed| any_river(&mut Rng::new(seed)).basin);
    for base in std::iter::once(rich_base()).chain(random) {
        files.push(base.encode());
        for &(_, _, edit) in BROKEN.iter() {
            let mut basin = base.clone();
            files.extend(edit(&mut basin, rng).map(|_| basin.encode()));
        }
        for &(_, edit) in LEGAL {
            let mut basin = base.clone();
            files.extend(edit(&mut basin, rng).map(|_| basin.encode()));
        }
        files.extend(not_packed(&base).into_iter().map(|(_, file)| file));
    }
    files
}

fn compare_check(wrong: &impl Telling, file: &[u8]) -> Seen {
    let told = match judge(wrong, file, &mut Network::room()) {
        Ok(_) => (0, 0),
        Err(refusal) => refusal.answer(),
    };
    (told != check(file)).then_some("check")
}

fn compare_fresh(wrong: &impl Telling, file: &[u8], before: &[u64]) -> Seen {
    let (mut right_board, mut wrong_board) = (before.to_vec(), before.to_vec());
    let told = fresh(file, &mut right_board) == board::fresh(wrong, file, &mut wrong_board);
    (!told || right_board != wrong_board).then_some("fresh")
}

fn compare_stock(wrong: &impl Telling, file: &[u8], board: &[u64]) -> Seen {
    (stock(file, board) != board::stock(wrong, file, board)).then_some("stock")
}

/// The short months of a right that is there, if there is one, and of some that are not.
fn compare_short_months(
    wrong: &impl Telling,
    river: &River,
    board: &[u64],
    rng: &mut Rng,
    calls: &mut usize,
) -> Seen {
    let rights = river.basin.rights.len();
    let far = *rng.pick(&[MOST_RIGHTS - 1, MOST_RIGHTS, 1 << 16, 1 << 32, usize::MAX]);
    let asked = [rng.below(rights.max(1)), rights, far];
    asked.into_iter().find_map(|right| {
        *calls += 1;
        let told = short_months(wrong, &river.file, board, right);
        (told != engine::short_months(&river.file, board, right)).then_some("short months")
    })
}

/// Compares one month call; the board goes on as the right engine leaves it.
fn compare_month(
    wrong: &impl Telling,
    file: &[u8],
    runoff: &[u32],
    board: &mut Vec<u64>,
    report_length: usize,
) -> Seen {
    let mut report = vec![55; report_length];
    let mut wrong_report = report.clone();
    let mut wrong_board = board.clone();
    let told = month::month(wrong, file, runoff, &mut wrong_board, &mut wrong_report);
    let answer = engine::month(file, runoff, board, &mut report);
    if told != answer {
        return Some("month: answer");
    }
    if wrong_report != report {
        let rights = find_sections(&Faithful, file).map_or(0, |sections| sections.rights.len());
        let stations: Vec<_> = (0..rights).map(report::station).collect();
        let only_named =
            (0..report_length).all(|at| wrong_report[at] == report[at] || stations.contains(&at));
        return Some(if only_named { "month: station named" } else { "month: report" });
    }
    (wrong_board != *board).then_some("month: board")
}

/// All calls on one river; `calls` counts them.
fn compare_river(wrong: &impl Telling, river: &River, rng: &mut Rng, calls: &mut usize) -> Seen {
    let file = &river.file;
    let length = river.basin.report_length();
    let mut board = river.possible_board(rng);
    *calls += 3;
    compare_check(wrong, file)
        .or_else(|| compare_fresh(wrong, file, &board))
        .or_else(|| compare_stock(wrong, file, &board))
        .or_else(|| compare_short_months(wrong, river, &board, rng, calls))
        .or_else(|| {
            fresh(file, &mut board);
            (0..30).find_map(|_| {
                *calls += 1;
                compare_month(wrong, file, &river.runoff(rng), &mut board, length + 2)
            })
        })
        .or_else(|| compare_possible_boards(wrong, river, rng, calls))
        .or_else(|| compare_refused_calls(wrong, river, rng, calls))
}

fn compare_possible_boards(
    wrong: &impl Telling,
    river: &River,
    rng: &mut Rng,
    calls: &mut usize,
) -> Seen {
    let length = river.basin.report_length();
    let extreme = |edit: Option<Extreme>, rng: &mut Rng| {
        let mut board = river.possible_board(rng);
        if let Some(edit) = edit {
            edit(&river.basin, &mut board);
        }
        board
    };
    let edits = POSSIBLE.iter().map(|possible| Some(possible.1));
    edits.chain([None; 6]).find_map(|edit| {
        *calls += 2;
        let mut board = extreme(edit, rng);
        let runoff = river.runoff(rng);
        compare_stock(wrong, &river.file, &board)
            .or_else(|| compare_month(wrong, &river.file, &runoff, &mut board, length))
            .or_else(|| compare_short_months(wrong, river, &board, rng, calls))
    })
}

fn compare_refused_calls(
    wrong: &impl Telling,
    river: &River,
    rng: &mut Rng,
    calls: &mut usize,
) -> Seen {
    let file = &river.file;
    let length = river.basin.report_length();
    for &(_, edit) in IMPOSSIBLE {
        let mut board = river.possible_board(rng);
        if impossible_board(edit, &river.basin, &mut board, rng).is_none() {
            continue;
        }
        *calls += 2;
        let runoff = vec![u32::MAX; river.basin.stations.len()];
        let seen = compare_stock(wrong, file, &board)
            .or_else(|| compare_short_months(wrong, river, &board, rng, calls))
            .or_else(|| compare_month(wrong, file, &runoff, &mut board, length));
        if seen.is_some() {
            return seen;
        }
    }
    compare_wrong_lengths(wrong, river, rng, calls)
}

fn compare_wrong_lengths(
    wrong: &impl Telling,
    river: &River,
    rng: &mut Rng,
    calls: &mut usize,
) -> Seen {
    let (file, length) = (&river.file, river.basin.report_length());
    let rows = river.basin.stations.len();
    let lengths = [
        (rows + 1, BOARD, length),
        (rows - 1, BOARD, length),
        (rows, BOARD + 1, length),
        (rows, BOARD - 1, length),
        (rows, SHORT, length),
        (rows, BOARD, length - 1),
        (rows, BOARD, length),
    ];
    lengths.into_iter().find_map(|(runoffs, boards, reports)| {
        *calls += 1;
        let mut board: Vec<u64> = river.possible_board(rng);
        board.resize(boards, 0);
        // With the right lengths: several rows over the limit, but not the first.
        let over =
            if (runoffs, boards, reports) == (rows, BOARD, length) { MOST_RUNOFF + 1 } else { 0 };
        let mut runoff = vec![over; runoffs];
        if rows > 1 && !runoff.is_empty() {
            runoff[0] = 0;
        }
        if boards != BOARD {
            *calls += 2;
            let seen = compare_fresh(wrong, file, &board)
                .or_else(|| compare_stock(wrong, file, &board))
                .or_else(|| compare_short_months(wrong, river, &board, rng, calls));
            if seen.is_some() {
                return seen;
            }
        }
        compare_month(wrong, file, &runoff, &mut board, reports)
    })
}

/// Place in the files' list of the first that tells the two apart.
fn find_in_files(wrong: &impl Telling, files: &[Vec<u8>]) -> Option<usize> {
    let differs = |file: &Vec<u8>| compare_check(wrong, file).is_some();
    files.iter().position(differs).map(|place| place + 1)
}

/// Where a call on a valid basin tells them apart, and after how many calls.
fn find_in_calls(wrong: &impl Telling) -> (Seen, usize) {
    let mut calls = 0;
    for seed in 0..200 {
        let rng = &mut Rng::new(seed);
        let river = any_river(rng);
        if let Some(seen) = compare_river(wrong, &river, rng, &mut calls) {
            return (Some(seen), calls);
        }
    }
    (None, calls)
}

#[test]
fn every_slip_is_seen() {
    let (files, asks, lists) = (files(), asks(), lists());
    let mut unseen = Vec::new();
    let mut table = String::from(
        "| slip | what is wrong | files until seen | calls until seen | years until seen | store \
         calls until seen |\n",
    );
    table += "|---|---|---|---|---|---|\n";
    for &(slip, name, wrong) in ALL {
        let wrong_engine = Slipped(slip);
        let found = if slip.of_store() {
            [None, None, None, find_in_stores(&wrong_engine, &lists)]
        } else {
            // A slip of the file's check alone shows in no call on a valid basin.
            let (seen, calls) = find_in_calls(&wrong_engine);
            let in_files = find_in_files(&wrong_engine, &files).map(|place| (place, ""));
            let in_years = find_in_years(&wrong_engine, &asks);
            [in_files, seen.map(|seen| (calls, seen)), in_years, None]
        };
        let told = found.map(|found| match found {
            None => "-".to_string(),
            Some((place, "")) => place.to_string(),
            Some((number, seen)) => format!("{number}, {seen}"),
        });
        table += &format!("| {name} | {wrong} | {} |\n", told.join(" | "));
        if found == [None; 4] {
            unseen.push(name);
        }
    }
    let counts = format!(
        "{} slips, {} files for the check, {} years asked for, {} calls on stores",
        ALL.len(),
        files.len(),
        asks.len(),
        asked(&lists)
    );
    println!("{table}\n{counts}");
    assert!(unseen.is_empty(), "not seen: {unseen:?}");
    let readme = include_str!("../../README.md");
    assert!(readme.contains(&table), "README.md has another table");
    assert!(readme.contains(&counts), "README.md has other counts than {counts}");
}

/// The comparison finds nothing where nothing is wrong: the right engine, run in the
/// wrong one's place on the same files and calls.
#[test]
fn the_right_engine_differs_nowhere() {
    assert_eq!(find_in_files(&Faithful, &files()), None);
    assert_eq!(find_in_years(&Faithful, &asks()), None);
    assert_eq!(find_in_stores(&Faithful, &lists()), None);
    let (seen, calls) = find_in_calls(&Faithful);
    assert_eq!(seen, None);
    println!("{calls} calls without a difference where there is none");
}
