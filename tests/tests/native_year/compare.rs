//! One look-up and one run of a year by both engines: answers, whole board, whole list,
//! and the numbers that lie beside both; then a right's short months on the board that is
//! left.

use river_tests::asked::Asked;
use river_tests::engine::board::NEXT_MONTH;
use river_tests::engine::book::{encode, WaterYear};
use river_tests::engine::report::LONGEST;
use river_tests::engine::sections::find_sections;
use river_tests::engine::slip::Faithful;
use river_tests::engine::{find_year, run_year, Answer};
use river_tests::ffi;
use river_tests::generate::{any_river, River, Rng};
use river_tests::lent::Lent;
use std::fmt::Display;

/// A river and the years of its book.
pub struct Shelf {
    pub river: River,
    pub years: Vec<WaterYear>,
}

impl Shelf {
    /// Any river, with so many years.
    pub fn of(rng: &mut Rng, years: usize) -> Shelf {
        let river = any_river(rng);
        Shelf { years: river.book(rng, years), river }
    }

    /// How many numbers the reports of twelve months have.
    pub fn enough(&self) -> usize {
        12 * self.river.basin.report_length()
    }
}

/// What both calls are lent.
pub struct Ask {
    pub file: Vec<u8>,
    pub book: Vec<u8>,
    pub year: u32,
    pub board: Vec<u64>,
    pub reports: Vec<u64>,
}

impl Ask {
    /// A run that the rules accept, where there is a year. The list has any content, and
    /// often more places than it needs.
    pub fn of(shelf: &Shelf, board: &[u64], rng: &mut Rng) -> Ask {
        let length = shelf.enough() + *rng.pick(&[0, 0, 0, 1, 2, 50, LONGEST]);
        Ask {
            file: shelf.river.file.clone(),
            book: encode(&shelf.years),
            year: if shelf.years.is_empty() { 1964 } else { rng.pick(&shelf.years).year },
            board: board.to_vec(),
            reports: (0..length).map(|_| rng.word()).collect(),
        }
    }
}

#[derive(Default, Debug)]
pub struct Compared {
    /// Runs and look-ups by their number: 0 accepted, 1 to 10 refused.
    pub runs: [usize; 11],
    pub look_ups: [usize; 11],
    /// Accepted runs by the month that they begin with.
    pub from: [usize; 12],
    /// After every run, of one right.
    pub asked: Asked,
}

impl Compared {
    /// Makes both calls by both engines. Answers as the run does; the board of an accepted
    /// one is left in `ask`.
    pub fn compare(&mut self, ask: &mut Ask, at: &dyn Display) -> Answer {
        let found = self.look_up(ask, at);
        let Ask { file, book, year, .. } = &*ask;
        let (mut board, mut reports) = (ask.board.clone(), ask.reports.clone());
        let answer = run_year(file, book, *year, &mut board, &mut reports);
        let (mut native_board, mut native_reports) = (Lent::of(&ask.board), Lent::of(&ask.reports));
        let native = ffi::run_year(file, book, *year, native_board.list(), native_reports.list());
        assert_eq!(native, answer, "{at}: the answer");
        // What the look-up refuses the run refuses too, and of its own no more than 6 to 8.
        let own = [0, 6, 7, 8].contains(&answer.0);
        assert_eq!(found, if own { (0, 0) } else { answer }, "{at}: the look-up");
        self.runs[answer.0 as usize] += 1;
        let rights = find_sections(&Faithful, file).map_or(0, |found| found.rights.len());
        self.asked.compare_next(file, &board, rights, at);
        if answer.0 != 0 {
            native_board.assert_is(&ask.board, "refused, board", at);
            native_reports.assert_is(&ask.reports, "refused, list", at);
            return answer;
        }
        native_reports.assert_is(&reports, "list", at);
        native_board.assert_is(&board, "board", at);
        assert_eq!(answer.1, 12 - ask.board[NEXT_MONTH], "{at}: months run");
        self.from[ask.board[NEXT_MONTH] as usize] += 1;
        ask.board = board;
        answer
    }

    /// How many runs there were.
    pub fn all(&self) -> usize {
        self.runs.iter().sum()
    }

    pub fn look_up(&mut self, ask: &Ask, at: &dyn Display) -> Answer {
        let Ask { file, book, year, .. } = ask;
        let found = find_year(file, book, *year);
        assert_eq!(ffi::find_year(file, book, *year), found, "{at}: the look-up");
        self.look_ups[found.0 as usize] += 1;
        found
    }

    /// native.sh adds up the counts of these lines.
    pub fn print(&self, what: &str) {
        let sum = |numbers: &[usize]| numbers.iter().sum::<usize>();
        println!(
            "{} year runs, {} turned down: {what}, by number 0 to 10 {:?}; {} look-ups: by number \
             {:?}",
            self.all(),
            sum(&self.runs[1..]),
            self.runs,
            sum(&self.look_ups),
            self.look_ups
        );
        self.asked.print(what);
    }
}
