//! Lists of month calls and years' runs in any mix, some of them refused, from the fresh
//! board or another possible one. To the tally an accepted run is its month calls (02, No. 4).

use super::compare::{compare_board, compare_report, compare_short_months, Compared, Start};
use river_tests::damage::broken_books;
use river_tests::engine::book::{encode, WaterYear};
use river_tests::engine::tally::Tally;
use river_tests::engine::{month, run_year};
use river_tests::generate::{any_listed, any_river, river_of, River, Rng, Size};

/// One list, with the book that its years come from.
struct List<'a> {
    river: &'a River,
    years: Vec<WaterYear>,
    at: Start,
}

/// Years' runs, beside what is compared of all calls.
#[derive(Default)]
struct Years {
    /// Accepted ones by the number of calls made, from 1 on.
    runs: [usize; 12],
    /// All by their number: 0 accepted, 1 to 10 refused.
    numbers: [usize; 11],
}

impl<'a> List<'a> {
    fn begin(rng: &mut Rng, river: &'a River) -> List<'a> {
        let fresh = rng.chance(60);
        List { years: river.any_book(rng), at: Start::of(river, rng, fresh), river }
    }

    fn month(&mut self, rng: &mut Rng, compared: &mut Compared) {
        let (file, runoff) = (&self.river.file, self.river.runoff(rng));
        let mut report = vec![77; self.river.basin.report_length()];
        let Start { tally, board, .. } = &mut self.at;
        let answer = month(file, &runoff, board, &mut report);
        assert_eq!(tally.call(&runoff, report.len()), answer);
        assert_eq!(answer.0, 0);
        compare_board(tally, board);
        compare_report(tally, tally.months.last().unwrap(), &report, compared);
        compare_short_months(self.river, &self.at, compared);
        compared.calls += 1;
    }

    /// What a run is asked for, book, year and length of the list: as a rule a listed year of
    /// a book that keeps its layout, runoff within its limit and a list that is long enough.
    fn ask(&self, rng: &mut Rng) -> (Vec<u8>, u32, usize) {
        let mut years = self.years.clone();
        if rng.chance(25) {
            let month = rng.below(12);
            years.iter_mut().for_each(|year| _ = self.river.put_over(rng, year, month));
        }
        let listed = any_listed(rng, &years).filter(|_| !rng.chance(8));
        let year = listed.unwrap_or(rng.between(1790, 2210) as u32);
        let mut book = encode(&years);
        if rng.chance(8) {
            book = rng.pick(&broken_books(&years, self.river.basin.stations.len())).1.clone();
        }
        let enough = 12 * self.river.basin.report_length();
        let more = *rng.pick(&[0, 0, 0, 1, 2, 30]);
        (book, year, if rng.chance(8) { enough - 1 } else { enough + more })
    }

    fn year(&mut self, rng: &mut Rng, compared: &mut Compared, years: &mut Years) {
        let (book, year, numbers) = self.ask(rng);
        let (board_before, reports_before) = (self.at.board.clone(), vec![77; numbers]);
        let mut reports = reports_before.clone();
        let answer = run_year(&self.river.file, &book, year, &mut self.at.board, &mut reports);
        assert_eq!(self.at.tally.run_year(&book, year, numbers), answer);
        years.numbers[answer.0 as usize] += 1;
        compare_short_months(self.river, &self.at, compared);
        let Start { tally, board, .. } = &self.at;
        compare_board(tally, board);
        if answer.0 != 0 {
            assert_eq!(*board, board_before, "a refused run changes nothing");
            assert_eq!(reports, reports_before, "a refused run changes nothing");
            compared.refused += 1;
            return;
        }
        let (calls, length) = (answer.1 as usize, self.river.basin.report_length());
        let past = &tally.months[tally.months.len() - calls..];
        for (past, report) in past.iter().zip(reports.chunks(length)) {
            compare_report(tally, past, report, compared);
        }
        assert!(reports[length * calls..].iter().all(|&number| number == 77));
        years.runs[calls - 1] += 1;
        compared.calls += calls;
    }
}

fn compare_lists(seeds: std::ops::Range<u64>, size: Option<Size>, calls: usize) -> Years {
    let (mut compared, mut years) = (Compared::default(), Years::default());
    for seed in seeds {
        let rng = &mut Rng::new(seed);
        let river = match size {
            Some(size) => river_of(rng, size),
            None => any_river(rng),
        };
        let mut list = List::begin(rng, &river);
        for _ in 0..calls {
            // Without months before it a run would be of a whole year.
            let months = if rng.chance(30) { 0 } else { rng.below(12) };
            for _ in 0..months {
                list.month(rng, &mut compared);
            }
            list.year(rng, &mut compared, &mut years);
        }
    }
    println!(
        "{} years' runs in lists of {} accepted month calls, {} with deep loss, {} refused, grants \
         by reason {:?}, {} rights asked for short months",
        years.numbers.iter().sum::<usize>(),
        compared.calls,
        compared.deep,
        compared.refused,
        compared.reasons,
        compared.asked()
    );
    assert!(compared.reasons.iter().all(|&times| times > 100));
    assert!(compared.short_months.iter().all(|&times| times > 100), "{:?}", compared.short_months);
    assert!(compared.deep > 1000);
    years
}

#[test]
fn small_rivers_with_books() {
    let years = compare_lists(40_000..41_000, Some(Size::Small), 6);
    // The lists are worth something only if all of this happens in them.
    assert!(years.runs.iter().all(|&times| times > 50), "{:?}", years.runs);
    assert!([0, 6, 8, 9, 10].iter().all(|&number: &usize| years.numbers[number] > 100));
}

#[test]
fn rivers_of_all_sizes_with_books() {
    let years = compare_lists(50_000..50_200, None, 4);
    assert!([0, 6, 8, 9, 10].iter().all(|&number: &usize| years.numbers[number] > 10));
}

/// The tally decides from the list's length and the runoff, and never from the board.
#[test]
fn the_tally_answers_by_itself() {
    let rng = &mut Rng::new(6);
    let river = river_of(rng, Size::Small);
    let mut years = river.book(rng, 2);
    let enough = 12 * river.basin.report_length();
    let mut tally = Tally::new(&river.file);
    let book = encode(&years);
    assert_eq!(tally.run_year(&book, years[1].year, enough - 1), (6, 0));
    assert_eq!(tally.run_year(&book, years[1].year, enough), (0, 12));
    assert_eq!(tally.call(&river.runoff(rng), 5000).0, 0);
    assert_eq!(tally.run_year(&book, years[0].year, enough), (0, 11));
    assert_eq!((tally.m, tally.months.len()), (0, 24));
    let row = river.put_over(rng, &mut years[0], 11) as u64;
    assert_eq!(tally.run_year(&encode(&years), years[0].year, enough), (8, row));
    let mut bad = river.basin.clone();
    bad.stations[0].zeros[2] = 1;
    assert_eq!(Tally::new(&bad.encode()).run_year(&book, 0, 0), (2, 0));
}
