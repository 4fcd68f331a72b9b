//! Runs of a year on random rivers: a run is its month calls, all or none, and what is
//! refused is refused in the order of 02, No. 4. Asked of every engine; the month calls are
//! the plain engine's.

use river_tests::calls::{by_each, Calls};
use river_tests::damage::*;
use river_tests::engine::board::{BOARD, NEXT_MONTH, SHORT};
use river_tests::engine::book::{encode, WaterYear};
use river_tests::engine::records::MOST_RUNOFF;
use river_tests::engine::{month, Answer};
use river_tests::generate::{any_river, River, Rng};

/// A year of a river's book, with what a run of it is lent.
struct Job {
    river: River,
    years: Vec<WaterYear>,
    /// The place of the year in the book.
    place: usize,
    board: Vec<u64>,
    reports: Vec<u64>,
}

impl Job {
    /// A job that the rules accept, on a possible board of month m.
    fn of(rng: &mut Rng, m: u64) -> Job {
        let river = any_river(rng);
        let count = rng.below(4) + 1;
        let years = river.book(rng, count);
        let mut board = river.possible_board(rng);
        board[NEXT_MONTH] = m;
        let reports = (0..12 * river.basin.report_length()).map(|_| rng.word()).collect();
        Job { place: rng.below(count), river, years, board, reports }
    }

    fn rows(&self) -> usize {
        self.river.basin.stations.len()
    }

    fn sheets(&self) -> Vec<Vec<u32>> {
        self.years[self.place].runoff.chunks(self.rows()).map(<[u32]>::to_vec).collect()
    }

    /// Runs it, on the job's own lists.
    fn run(&mut self, calls: &Calls) -> Answer {
        let (book, year) = (encode(&self.years), self.years[self.place].year);
        (calls.run_year)(&self.river.file, &book, year, &mut self.board, &mut self.reports)
    }

    #[track_caller]
    fn assert_refused(mut self, calls: &Calls, answer: Answer) {
        let before = (self.board.clone(), self.reports.clone());
        assert_eq!(self.run(calls), answer);
        assert!(before == (self.board, self.reports), "a refused run changes nothing");
    }
}

/// The board and the list after the month calls, one by one.
fn by_months(job: &Job) -> (Vec<u64>, Vec<u64>) {
    let (mut board, mut reports) = (job.board.clone(), job.reports.clone());
    let length = job.river.basin.report_length();
    let first = board[NEXT_MONTH] as usize;
    for (call, sheet) in job.sheets()[first..].iter().enumerate() {
        let report = &mut reports[length * call..length * (call + 1)];
        assert_eq!(month(&job.river.file, sheet, &mut board, report).0, 0);
    }
    (board, reports)
}

#[test]
fn a_run_is_its_month_calls() {
    by_each(|calls| {
        for seed in 0..600 {
            let rng = &mut Rng::new(seed);
            let m = seed % 12;
            let mut job = Job::of(rng, m);
            // What stands beyond the reports stays, be it within the twelve or after them.
            let more = *rng.pick(&[0, 0, 1, 7, 1000]);
            job.reports.extend((0..more).map(|_| rng.word()));
            let expected = by_months(&job);
            assert_eq!(job.run(calls), (0, 12 - m), "seed {seed}");
            assert_eq!(job.board[NEXT_MONTH], 0);
            assert!(job.board == expected.0, "seed {seed}: board");
            assert!(job.reports == expected.1, "seed {seed}: list");
        }
    });
}

/// Room for twelve reports is asked for in every month, also where one is left.
#[test]
fn a_list_too_short_is_refused() {
    by_each(|calls| {
        for seed in 0..120 {
            let rng = &mut Rng::new(seed);
            let job = || Job::of(&mut Rng::new(seed), seed % 12);
            let length = job().river.basin.report_length();
            for numbers in [0, 1, length, 11 * length, 12 * length - 1] {
                let mut job = job();
                job.reports.truncate(numbers);
                // Neither an impossible board nor runoff over its limit comes before it.
                if rng.chance(50) {
                    job.board[NEXT_MONTH] = *rng.pick(&[12, u64::MAX]);
                }
                if rng.chance(50) {
                    job.years[job.place].runoff.fill(u32::MAX);
                }
                job.assert_refused(calls, (6, 0));
            }
            for numbers in [0, 1, SHORT, BOARD - 1, BOARD + 1] {
                let mut job = job();
                job.board.resize(numbers, 0);
                job.assert_refused(calls, (6, 0));
            }
        }
    });
}

#[test]
fn an_impossible_board_is_refused() {
    by_each(|calls| {
        for seed in 0..60 {
            for &(_, edit) in IMPOSSIBLE {
                let rng = &mut Rng::new(seed);
                let mut job = Job::of(rng, seed % 12);
                if impossible_board(edit, &job.river.basin, &mut job.board, rng).is_none() {
                    continue;
                }
                // 7 comes before 8.
                if rng.chance(50) {
                    job.years[job.place].runoff.fill(u32::MAX);
                }
                job.assert_refused(calls, (7, 0));
            }
        }
    });
}

/// The first sheet that has it, from the board's month on, and its first row.
#[test]
fn runoff_over_its_limit_is_refused() {
    by_each(|calls| {
        for seed in 0..600 {
            let rng = &mut Rng::new(seed);
            let m = seed % 12;
            let mut job = Job::of(rng, m);
            let over = rng.between(m, 11) as usize;
            let year = &mut job.years[job.place];
            let row = job.river.put_over(rng, year, over);
            // Sheets after it do not matter, nor do those before m.
            for other in (0..m as usize).chain(over + 1..12) {
                if rng.chance(30) {
                    job.river.put_over(rng, year, other);
                }
            }
            job.assert_refused(calls, (8, row as u64));
        }
    });
}

#[test]
fn months_that_are_over_are_not_looked_at() {
    by_each(|calls| {
        for seed in 0..120 {
            let rng = &mut Rng::new(seed);
            let m = seed % 12;
            let mut job = Job::of(rng, m);
            let rows = job.rows();
            // Nor are other years; at the limit nothing is over it.
            for (place, year) in job.years.iter_mut().enumerate() {
                let gone = if place == job.place { rows * m as usize } else { 12 * rows };
                year.runoff[..gone].fill(u32::MAX);
                year.runoff[gone..].fill(MOST_RUNOFF);
            }
            let expected = by_months(&job);
            assert_eq!(job.run(calls), (0, 12 - m), "seed {seed}");
            assert!((job.board, job.reports) == expected, "seed {seed}");
        }
    });
}

/// Everything wrong at once, and put right one by one: the file, the book, the year, the
/// list, the board, the runoff.
#[test]
fn refusals_have_their_order() {
    by_each(|calls| {
        for seed in 0..200 {
            let rng = &mut Rng::new(seed);
            let mut job = Job::of(rng, 0);
            let (file, reports) = (job.river.file.clone(), job.reports.clone());
            let year = job.years[job.place].year;
            job.river.put_over(rng, &mut job.years[job.place], 5);
            let book = encode(&job.years);
            let row = {
                let sheet = &job.sheets()[5];
                sheet.iter().position(|&number| number > MOST_RUNOFF).unwrap() as u64
            };
            let (bad_file, bad_book) = ([&file[..], &[0]].concat(), [&book[..], &[0]].concat());
            let mut bad_board = job.board.clone();
            bad_board[NEXT_MONTH] = 12;
            let ask = |file: &[u8], book: &[u8], year, length: usize, board: &[u64]| {
                let (mut board, mut list) = (board.to_vec(), reports[..length].to_vec());
                (calls.run_year)(file, book, year, &mut board, &mut list)
            };
            let all = reports.len();
            assert_eq!(ask(&bad_file, &bad_book, 1799, 0, &bad_board), (1, 0));
            assert_eq!(ask(&file, &bad_book, 1799, 0, &bad_board), (9, 0));
            assert_eq!(ask(&file, &book, 1799, 0, &bad_board), (10, 0));
            assert_eq!(ask(&file, &book, 2201, all, &job.board), (10, 0));
            assert_eq!(ask(&file, &book, year, all - 1, &bad_board), (6, 0));
            assert_eq!(ask(&file, &book, year, all, &bad_board[1..]), (6, 0));
            assert_eq!(ask(&file, &book, year, all, &bad_board), (7, 0));
            assert_eq!(ask(&file, &book, year, all, &job.board), (8, row));
        }
    });
}
