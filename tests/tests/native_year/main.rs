//! The static library's look-up and run of a year against the plain engine: lists of
//! months and years on random rivers, spoilt ones among them, every damage of a book,
//! damaged files, boards of every month. Answers, whole board and whole list are compared.
//! Feature `native`.
//!
//! `RIVER_SEED` is the first seed, `RIVER_YEARS` how many runs the lists are to have. A
//! list depends on its seed alone, so `RIVER_SEED=n RIVER_YEARS=1` runs the one that a
//! message names.

mod compare;
mod spoils;

use compare::{Ask, Compared, Shelf};
use river_tests::damage::*;
use river_tests::engine::board::{BOARD, NEXT_MONTH, SHORT};
use river_tests::engine::book::{encode, MOST_YEARS};
use river_tests::engine::{fresh, month};
use river_tests::ffi;
use river_tests::generate::{river, river_of, River, Rng, Size, Volume, Water};
use river_tests::lent::Lent;
use river_tests::seeds::{first_seed, from_environment};
use spoils::SPOILS;

const RUNS: usize = 14_000;

// ---- lists of months and years ----

/// The fresh board, or any possible one, now and then an extreme one.
fn first_board(river: &River, rng: &mut Rng) -> Vec<u64> {
    let mut board = river.possible_board(rng);
    if rng.chance(40) {
        assert_eq!(fresh(&river.file, &mut board), (0, 0));
    } else if rng.chance(30) {
        let &(_, edit) = rng.pick(POSSIBLE);
        edit(&river.basin, &mut board);
    }
    board
}

/// A month between two years, by both engines.
fn compare_month(river: &River, board: &mut [u64], rng: &mut Rng, at: &str) {
    let (runoff, mut native) = (river.runoff(rng), Lent::of(board));
    let mut report = vec![9; river.basin.report_length()];
    let mut native_report = Lent::of(&report);
    let told = ffi::month(&river.file, &runoff, native.list(), native_report.list());
    assert_eq!(told, month(&river.file, &runoff, board, &mut report), "{at}: a month");
    native.assert_is(board, "board of a month", &at);
    native_report.assert_is(&report, "report", &at);
}

/// A list on one river, each call on the board that the one before left.
fn compare_list(seed: u64, compared: &mut Compared, months: &mut usize, spoilt: &mut [usize]) {
    let rng = &mut Rng::new(seed);
    let years = *rng.pick(&[1, 2, 2, 3, 5, MOST_YEARS]);
    let shelf = Shelf::of(rng, years);
    let mut board = first_board(&shelf.river, rng);
    for number in 0..*rng.pick(&[5, 10, 20]) {
        let mut at = format!("RIVER_SEED={seed}, run {number}");
        for _ in 0..if rng.chance(40) { 0 } else { rng.below(12) } {
            compare_month(&shelf.river, &mut board, rng, &at);
            *months += 1;
        }
        let mut ask = Ask::of(&shelf, &board, rng);
        let spoils = if rng.chance(40) { *rng.pick(&[1, 1, 1, 2]) } else { 0 };
        for _ in 0..spoils {
            let which = rng.below(SPOILS.len());
            let (name, spoil) = SPOILS[which];
            spoil(&mut ask, &shelf, rng);
            at += &format!(", {name}");
            spoilt[which] += 1;
        }
        let answer = compared.compare(&mut ask, &at);
        if spoils == 0 {
            assert_eq!(answer.0, 0, "{at}: refused");
            board = ask.board;
        }
    }
}

#[test]
fn lists_of_months_and_years() {
    let runs = from_environment("RIVER_YEARS").map_or(RUNS, |runs| runs as usize);
    let mut compared = Compared::default();
    let (mut months, mut spoilt) = (0, [0; SPOILS.len()]);
    let mut seed = first_seed();
    while compared.all() < runs {
        compare_list(seed, &mut compared, &mut months, &mut spoilt);
        seed += 1;
    }
    compared.print("lists of months and years");
    println!(
        "    seeds {} to {}, {months} months between them; accepted runs by first month {:?}",
        first_seed(),
        seed - 1,
        compared.from
    );
    for ((name, _), times) in SPOILS.iter().zip(&spoilt) {
        println!("    {times} runs: {name}");
    }
    // A short run by hand need not meet everything.
    if runs >= RUNS {
        assert!(compared.runs.iter().all(|&times| times > 20), "{compared:?}");
        assert!(compared.from.iter().all(|&times| times > 100), "{compared:?}");
        assert!(spoilt.iter().all(|&times| times > 200), "{spoilt:?}");
    }
}

// ---- every book ----

/// Every damage has the refusal that the rules give it; one at random has the plain
/// engine's.
#[test]
fn broken_books_and_damaged_ones() {
    let mut compared = Compared::default();
    for seed in 0..60 {
        let rng = &mut Rng::new(seed);
        let shelf = Shelf::of(rng, [0, 1, 2, 3, 5, MOST_YEARS][seed as usize % 6]);
        let board = shelf.river.possible_board(rng);
        for (name, book) in broken_books(&shelf.years, shelf.river.basin.stations.len()) {
            let at = format!("seed {seed}, {name}");
            let mut ask = Ask { book, ..Ask::of(&shelf, &board, rng) };
            assert_eq!(compared.compare(&mut ask, &at), (9, 0), "{at}");
        }
        for time in 0..100 {
            let mut ask = Ask::of(&shelf, &board, rng);
            ask.book = random_book_damage(rng, &ask.book);
            compared.compare(&mut ask, &format!("seed {seed}, damage {time}"));
        }
    }
    compared.print("damaged books");
    assert!(compared.runs[9] > 5000 && compared.runs[0] > 100, "{compared:?}");
}

/// Every year of a book, at every place, and years that are not there; in books of every
/// number of years, the largest basin's among them.
#[test]
fn every_year_of_a_book() {
    let mut compared = Compared::default();
    for seed in 0..63 {
        let rng = &mut Rng::new(seed);
        let river = match seed {
            20 => river(&mut Rng::new(20736), Size::Limit, Volume::Usual, Water::Even),
            41 => river_of(rng, Size::Limit),
            _ => river_of(rng, Size::Small),
        };
        let shelf = Shelf { years: river.book(rng, seed as usize % 21), river };
        for place in 0..shelf.years.len() {
            let board = shelf.river.possible_board(rng);
            let year = shelf.years[place].year;
            let mut ask = Ask { year, ..Ask::of(&shelf, &board, rng) };
            let at = format!("seed {seed}, year {year}");
            assert_eq!(compared.compare(&mut ask, &at).0, 0, "{at}");
        }
        let mut ask = Ask::of(&shelf, &[], rng);
        for year in (1790..=2210).chain([0, 1 << 31, u32::MAX]) {
            ask.year = year;
            let listed = shelf.years.iter().any(|listed| listed.year == year);
            let found = compared.look_up(&ask, &format!("seed {seed}, year {year}"));
            assert_eq!(found, if listed { (0, 0) } else { (10, 0) }, "seed {seed}, year {year}");
        }
    }
    compared.print("every year of a book");
}

// ---- every file, board, list and sheet ----

#[test]
fn damaged_files() {
    let mut compared = Compared::default();
    for seed in 0..20 {
        let rng = &mut Rng::new(seed);
        let shelf = Shelf::of(rng, 2);
        let board = shelf.river.possible_board(rng);
        for &(name, number, edit) in BROKEN.iter() {
            let mut basin = shelf.river.basin.clone();
            let Some(place) = edit(&mut basin, rng) else { continue };
            let at = format!("seed {seed}, {name}");
            let mut ask = Ask { file: basin.encode(), ..Ask::of(&shelf, &board, rng) };
            // The file comes before the book and the year.
            if rng.chance(50) {
                ask.book.pop();
                ask.year = 0;
            }
            assert_eq!(compared.compare(&mut ask, &at), (number, place as u64), "{at}");
        }
        for (name, file) in not_packed(&shelf.river.basin) {
            let mut ask = Ask { file, ..Ask::of(&shelf, &board, rng) };
            let at = format!("seed {seed}, {name}");
            assert_eq!(compared.compare(&mut ask, &at), (1, 0), "{at}");
        }
    }
    compared.print("damaged files");
    assert!(compared.runs[1..=5].iter().all(|&times| times > 100), "{compared:?}");
}

/// Boards of every month, possible and not, with lists of every length that matters.
#[test]
fn boards_and_lists() {
    let mut compared = Compared::default();
    for seed in 0..120 {
        let rng = &mut Rng::new(seed);
        let shelf = Shelf::of(rng, 1);
        let (enough, one) = (shelf.enough(), shelf.enough() / 12);
        let mut board = shelf.river.possible_board(rng);
        board[NEXT_MONTH] = seed % 12;
        let mut run = |board: &[u64], length: usize, number: u64, what: &str| {
            let mut ask = Ask { reports: vec![5; length], ..Ask::of(&shelf, board, rng) };
            let at = format!("seed {seed}, {what}, a list of {length}");
            assert_eq!(compared.compare(&mut ask, &at).0, number, "{at}");
        };
        for length in [enough, enough + 1, enough + one, 2 * enough] {
            run(&board, length, 0, "possible");
        }
        for length in [0, 1, one - 1, one, (12 - board[NEXT_MONTH] as usize) * one - 1, enough - 1]
        {
            run(&board, length, 6, "possible");
        }
        for length in [0, 1, SHORT, BOARD - 1, BOARD + 1] {
            run(&vec![0; length], enough, 6, "a board of another length");
        }
        let rng = &mut Rng::new(seed);
        for &(name, edit) in IMPOSSIBLE {
            let mut board = board.clone();
            if impossible_board(edit, &shelf.river.basin, &mut board, rng).is_some() {
                run(&board, enough, 7, name);
                run(&board, enough - 1, 6, name);
            }
        }
        for &(name, edit) in POSSIBLE {
            let mut board = board.clone();
            edit(&shelf.river.basin, &mut board);
            run(&board, enough, 0, name);
        }
    }
    compared.print("boards and lists");
}

/// A sheet over its limit in every month, with the board in every month.
#[test]
fn sheets_over_their_limit() {
    let mut compared = Compared::default();
    for seed in 0..1440 {
        let rng = &mut Rng::new(seed);
        let mut shelf = Shelf::of(rng, 1);
        let mut board = shelf.river.possible_board(rng);
        board[NEXT_MONTH] = seed % 12;
        let over = seed as usize / 12 % 12;
        let row = shelf.river.put_over(rng, &mut shelf.years[0], over) as u64;
        let mut ask = Ask { book: encode(&shelf.years), ..Ask::of(&shelf, &board, rng) };
        let at = format!("seed {seed}, over in month {over}");
        let left = 12 - seed % 12;
        let refused = over as u64 >= seed % 12;
        let expected = if refused { (8, row) } else { (0, left) };
        assert_eq!(compared.compare(&mut ask, &at), expected, "{at}");
    }
    compared.print("sheets over their limit");
}
