//! Look-ups and years' runs, asked of the right engine once and then of every wrong one.

use river_tests::damage::*;
use river_tests::engine::board::{BOARD, NEXT_MONTH};
use river_tests::engine::book::{self, encode, WaterYear};
use river_tests::engine::slip::{Faithful, Telling};
use river_tests::engine::{year, Answer};
use river_tests::generate::{any_listed, river_of, River, Rng, Size};

/// What both calls are lent.
pub struct Ask {
    file: Vec<u8>,
    book: Vec<u8>,
    year: u32,
    board: Vec<u64>,
    reports: Vec<u64>,
}

/// What they answer, and what a run leaves.
#[derive(PartialEq)]
struct Told {
    found: Answer,
    ran: Answer,
    board: Vec<u64>,
    reports: Vec<u64>,
}

impl Ask {
    /// A run that the rules accept, from any month on.
    fn of(river: &River, years: &[WaterYear], year: u32, rng: &mut Rng) -> Ask {
        Ask {
            file: river.file.clone(),
            book: encode(years),
            year,
            board: river.possible_board(rng),
            reports: vec![55; 12 * river.basin.report_length() + rng.below(3)],
        }
    }

    fn told(&self, telling: &impl Telling) -> Told {
        let Ask { file, book, year, .. } = self;
        let (mut board, mut reports) = (self.board.clone(), self.reports.clone());
        Told {
            found: book::find_year(telling, file, book, *year),
            ran: year::run_year(telling, file, book, *year, &mut board, &mut reports),
            board,
            reports,
        }
    }
}

/// Sound books of all numbers of years, broken ones, and runs that are refused.
pub fn asks() -> Vec<Ask> {
    let mut asks = Vec::new();
    for seed in 0..42 {
        let rng = &mut Rng::new(seed);
        let river = river_of(rng, Size::Small);
        let years = river.book(rng, seed as usize % 21);
        for unlisted in [0, 1799, 2201, u32::MAX] {
            asks.push(Ask::of(&river, &years, unlisted, rng));
        }
        for WaterYear { year, .. } in &years {
            asks.push(Ask::of(&river, &years, *year, rng));
        }
        if let Some(year) = any_listed(rng, &years) {
            refused_runs(&river, &years, year, rng, &mut asks);
        }
        if years.len() < 4 {
            for (_, book) in broken_books(&years, river.basin.stations.len()) {
                let year = any_listed(rng, &years).filter(|_| rng.chance(50)).unwrap_or(1799);
                asks.push(Ask { book, ..Ask::of(&river, &years, year, rng) });
            }
        }
    }
    asks
}

/// With one or two of list, board, year and runoff wrong.
fn refused_runs(river: &River, years: &[WaterYear], year: u32, rng: &mut Rng, asks: &mut Vec<Ask>) {
    let mut shorter = Ask::of(river, years, year, rng);
    shorter.reports.truncate(12 * river.basin.report_length() - 1);
    let mut late = Ask::of(river, years, year, rng);
    late.reports.truncate(river.basin.report_length());
    late.board[NEXT_MONTH] = 11;
    let mut short_and_unlisted = Ask::of(river, years, 1799, rng);
    short_and_unlisted.reports.clear();
    let mut no_board = Ask::of(river, years, year, rng);
    no_board.board.truncate(BOARD - 1);
    let mut short_and_impossible = Ask::of(river, years, year, rng);
    short_and_impossible.board[NEXT_MONTH] = 12;
    short_and_impossible.reports.clear();
    asks.extend([shorter, late, short_and_unlisted, no_board, short_and_impossible]);
    for &(_, edit) in IMPOSSIBLE {
        let mut ask = Ask::of(river, years, year, rng);
        impossible_board(edit, &river.basin, &mut ask.board, rng);
        asks.push(ask);
    }
    for month in 0..12 {
        let mut over = years.to_vec();
        over.iter_mut().for_each(|year| _ = river.put_over(rng, year, month));
        asks.push(Ask::of(river, &over, year, rng));
    }
}

/// How many are asked until a wrong engine tells something else, and where.
pub fn find_in_years(wrong: &impl Telling, asks: &[Ask]) -> Option<(usize, &'static str)> {
    asks.iter().zip(1..).find_map(|(ask, number)| {
        let (right, told) = (ask.told(&Faithful), ask.told(wrong));
        let seen = if told.found != right.found {
            "look-up"
        } else if told.ran != right.ran {
            "year: answer"
        } else if told.reports != right.reports {
            "year: list"
        } else if told != right {
            "year: board"
        } else {
            return None;
        };
        Some((number, seen))
    })
}
