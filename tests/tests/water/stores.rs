//! Lists of month calls, years' runs and calls on a store in any mix, by each engine (02,
//! No. 7). The tally starts anew on every possible board that is recalled, and on the fresh
//! one; of an impossible one it has nothing to say: months and years are refused, and nothing
//! changes, until another is recalled.

use super::compare::{compare_board, compare_report, compare_short_months, Compared, Start};
use super::shelf::{Board, Shelf};
use super::spoil;
use river_tests::calls::{by_each, Calls};
use river_tests::engine::book::{encode, WaterYear};
use river_tests::engine::tally::Tally;
use river_tests::engine::Answer;
use river_tests::generate::{any_listed, any_name, any_river, river_of, River, Rng, Size, NAMES};

/// One list: the store as the engine has it and as it should be, and the board with its tally,
/// which is that of an earlier board where this one is not possible.
struct List<'a> {
    calls: &'static Calls,
    river: &'a River,
    years: Vec<WaterYear>,
    store: Vec<u8>,
    shelf: Shelf,
    at: Start,
    possible: bool,
}

/// Beside what is compared of all months.
#[derive(Default, Debug)]
struct Stores {
    /// Calls on a store by their number, up to 12.
    numbers: [usize; 13],
    /// Recalled boards that were possible, and that were not.
    possible: usize,
    impossible: usize,
    /// Months and years on a board that was not.
    in_vain: usize,
    /// Accepted months and years' runs.
    months: usize,
    years: usize,
}

impl<'a> List<'a> {
    fn begin(calls: &'static Calls, river: &'a River, rng: &mut Rng) -> List<'a> {
        let shelf = Shelf::any(river, rng);
        List {
            calls,
            years: river.book(rng, 2),
            store: shelf.bytes(),
            shelf,
            at: Start::of(river, rng, true),
            possible: true,
            river,
        }
    }

    fn step(&mut self, rng: &mut Rng, compared: &mut Compared, stores: &mut Stores) {
        match rng.below(20) {
            0..9 => self.month(rng, compared, stores),
            9 => self.year(rng, compared, stores),
            10..13 => self.save(rng, stores),
            13..18 => self.recall(rng, stores),
            18 => self.drop_name(rng, stores),
            _ => self.fresh(),
        }
        if self.possible {
            compare_board(&self.at.tally, &self.at.board);
            compare_short_months(self.river, &self.at, compared);
        }
    }

    /// A month or a year on a board that is not possible: only a wrong length comes before 7.
    fn refused(&self, answer: Answer, length: bool, before: &[u64], stores: &mut Stores) {
        assert_eq!(answer, (if length { 6 } else { 7 }, 0));
        assert!(self.at.board == before, "a refused call changes nothing");
        stores.in_vain += 1;
    }

    fn month(&mut self, rng: &mut Rng, compared: &mut Compared, stores: &mut Stores) {
        let length = self.river.basin.report_length();
        let (mut runoff, mut report) = (self.river.runoff(rng), vec![77; length]);
        spoil(rng, &mut runoff, &mut report, length);
        let (before, report_before) = (self.at.board.clone(), report.clone());
        let Start { tally, board, .. } = &mut self.at;
        let answer = (self.calls.month)(&self.river.file, &runoff, board, &mut report);
        if !self.possible {
            let length = report.len() < length || runoff.len() != self.river.basin.stations.len();
            assert!(report == report_before, "a refused call changes nothing");
            return self.refused(answer, length, &before, stores);
        }
        assert_eq!(tally.call(&runoff, report.len()), answer);
        if answer.0 == 0 {
            compare_report(tally, tally.months.last().unwrap(), &report, compared);
            stores.months += 1;
        } else {
            assert!(report == report_before, "a refused call changes nothing");
        }
    }

    /// A listed year of a sound book, now and then with a sheet over its limit or a short list.
    fn year(&mut self, rng: &mut Rng, compared: &mut Compared, stores: &mut Stores) {
        let mut years = self.years.clone();
        if rng.chance(20) {
            let month = rng.below(12);
            years.iter_mut().for_each(|year| _ = self.river.put_over(rng, year, month));
        }
        let (book, year) = (encode(&years), any_listed(rng, &years).unwrap());
        let length = self.river.basin.report_length();
        let mut reports = vec![77; 12 * length - rng.chance(10) as usize];
        let before = self.at.board.clone();
        let Start { tally, board, .. } = &mut self.at;
        let answer = (self.calls.run_year)(&self.river.file, &book, year, board, &mut reports);
        if self.possible {
            assert_eq!(tally.run_year(&book, year, reports.len()), answer);
        } else {
            self.refused(answer, reports.len() < 12 * length, &before, stores);
        }
        let run = if answer.0 == 0 { answer.1 as usize } else { 0 };
        let tally = &self.at.tally;
        let past = &tally.months[tally.months.len() - run..];
        for (past, report) in past.iter().zip(reports.chunks(length)) {
            compare_report(tally, past, report, compared);
        }
        assert!(reports[length * run..].iter().all(|&number| number == 77));
        stores.years += (run > 0) as usize;
    }

    /// A name, as a rule one of few; now and then of another length.
    fn name(rng: &mut Rng) -> Vec<u8> {
        let mut name = if rng.chance(90) { NAMES[rng.below(4)] } else { any_name(rng) }.to_vec();
        if rng.chance(5) {
            name.resize(*rng.pick(&[0, 7, 9]), 0);
        }
        name
    }

    /// The store is as it should be, and the board not touched unless it is recalled.
    fn told(&self, answer: Answer, expected: Answer, before: &[u64], stores: &mut Stores) {
        assert_eq!(answer, expected);
        assert!(self.store == self.shelf.bytes(), "the store is another");
        assert!(self.at.board == before, "the board is another");
        stores.numbers[answer.0 as usize] += 1;
    }

    /// Mostly the board that the list has come to.
    fn save(&mut self, rng: &mut Rng, stores: &mut Stores) {
        let (name, before) = (Self::name(rng), self.at.board.clone());
        let mut saved = Board { numbers: before.clone(), possible: self.possible };
        if rng.chance(40) {
            saved = Board::any(self.river, rng);
        }
        if rng.chance(5) {
            saved.numbers.resize(*rng.pick(&[0, 1225, 1227]), 0);
        }
        let answer = (self.calls.save)(&mut self.store, &name, &saved.numbers);
        let expected = self.shelf.save(&name, &saved);
        self.told(answer, expected, &before, stores);
    }

    fn recall(&mut self, rng: &mut Rng, stores: &mut Stores) {
        let name = Self::name(rng);
        if rng.chance(5) {
            let (mut lent, before) = (vec![77; *rng.pick(&[0, 1225, 1227])], self.at.board.clone());
            let answer = (self.calls.recall)(&self.store, &name, &mut lent);
            assert!(lent.iter().all(|&number| number == 77), "a refused call changes nothing");
            return self.told(answer, (6, 0), &before, stores);
        }
        let before = self.at.board.clone();
        let answer = (self.calls.recall)(&self.store, &name, &mut self.at.board);
        match self.shelf.recall(&name, 1226) {
            Err(refusal) => self.told(answer, refusal, &before, stores),
            Ok(Board { numbers, possible }) => {
                self.told(answer, (0, 0), numbers, stores);
                self.possible = *possible;
                if *possible {
                    self.at.tally = Tally::on_board(&self.river.file, numbers);
                    self.at.fresh = false;
                }
                stores.possible += *possible as usize;
                stores.impossible += !*possible as usize;
            }
        }
    }

    fn drop_name(&mut self, rng: &mut Rng, stores: &mut Stores) {
        let (name, before) = (Self::name(rng), self.at.board.clone());
        if rng.chance(10) {
            let mut lent = self.store.clone();
            lent.resize(*rng.pick(&[0, 39_263, 39_265]), 0);
            let cut = lent.clone();
            let answer = (self.calls.drop_name)(&mut lent, &name);
            assert!(lent == cut, "a refused call changes nothing");
            return self.told(answer, (6, 0), &before, stores);
        }
        let answer = (self.calls.drop_name)(&mut self.store, &name);
        let expected = self.shelf.drop_name(&name);
        self.told(answer, expected, &before, stores);
    }

    fn fresh(&mut self) {
        assert_eq!((self.calls.fresh)(&self.river.file, &mut self.at.board), (0, 0));
        self.at.tally = Tally::new(&self.river.file);
        (self.at.fresh, self.possible) = (true, true);
    }
}

fn compare_lists(seeds: std::ops::Range<u64>, size: Option<Size>, steps: usize) {
    by_each(|calls| {
        let (mut compared, mut stores) = (Compared::default(), Stores::default());
        for seed in seeds.clone() {
            let rng = &mut Rng::new(seed);
            let river = match size {
                Some(size) => river_of(rng, size),
                None => any_river(rng),
            };
            let mut list = List::begin(calls, &river, rng);
            (0..steps).for_each(|_| list.step(rng, &mut compared, &mut stores));
        }
        println!(
            "{} calls on stores in lists of {} months and {} years' runs; {} possible boards \
             recalled, {} impossible, {} months and years on these",
            stores.numbers.iter().sum::<usize>(),
            stores.months,
            stores.years,
            stores.possible,
            stores.impossible,
            stores.in_vain
        );
        // The lists are worth something only if all of this happens in them.
        assert!([0, 6, 11, 12].iter().all(|&number: &usize| stores.numbers[number] > 20));
        assert!(stores.possible > 300 && stores.impossible > 100 && stores.in_vain > 100);
        assert!(stores.months > 500 && stores.years > 50, "{stores:?}");
        assert!(compared.reasons.iter().all(|&times| times > 100) && compared.deep > 200);
    });
}

#[test]
fn small_rivers_with_stores() {
    compare_lists(60_000..60_800, Some(Size::Small), 50);
}

#[test]
fn rivers_of_all_sizes_with_stores() {
    compare_lists(61_000..61_150, None, 50);
}
