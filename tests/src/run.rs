//! A run of months by hand: every call goes through an engine and through the
//! tally with its assertions, and both must answer alike.

use crate::calls::Calls;
use crate::engine::board::{BOARD, SHORT};
use crate::engine::records::{Basin, MONTHS};
use crate::engine::report;
use crate::engine::tally::Tally;
use crate::engine::Answer;

pub struct Run {
    calls: &'static Calls,
    file: Vec<u8>,
    pub board: Vec<u64>,
    report: Vec<u64>,
    /// What a year's run is lent for its reports.
    reports: Vec<u64>,
    rights: usize,
    rows: usize,
    reservoirs: usize,
    tally: Tally,
}

/// What stands in a list before a year is run, and stays beyond its reports.
const BEFORE: u64 = 77;

impl Run {
    pub fn of(calls: &'static Calls, basin: &Basin) -> Run {
        let file = basin.encode();
        assert_eq!((calls.check)(&file), (0, 0));
        // Numbers that fresh has to overwrite.
        let mut board = vec![7; BOARD];
        assert_eq!((calls.fresh)(&file, &mut board), (0, 0));
        Run {
            calls,
            tally: Tally::new(&file),
            file,
            board,
            report: vec![0; basin.report_length()],
            reports: vec![BEFORE; MONTHS * basin.report_length() + 5],
            rights: basin.rights.len(),
            rows: basin.stations.len(),
            reservoirs: basin.reservoirs.len(),
        }
    }

    /// Runs a month that is to be accepted; answers the number of rights short.
    pub fn month(&mut self, runoff: &[u32]) -> u64 {
        let answer = (self.calls.month)(&self.file, runoff, &mut self.board, &mut self.report);
        assert_eq!(self.tally.call(runoff, self.report.len()), answer);
        assert_eq!(answer.0, 0);
        let past = self.tally.months.last().unwrap();
        let stations: Vec<u64> = past.grants.iter().map(|grant| grant.station as u64).collect();
        assert_eq!(self.grants().iter().map(|grant| grant[3]).collect::<Vec<_>>(), stations);
        assert_eq!(self.deep_loss() as i128, self.tally.deep_loss(past));
        self.assert_short_months();
        answer.1
    }

    /// Runs what is left of a year, or is refused; answers as the call does. Afterwards
    /// [`Run::show`] has its months.
    pub fn year(&mut self, book: &[u8], year: u32) -> Answer {
        self.reports.fill(BEFORE);
        let before = self.board.clone();
        let (board, reports) = (&mut self.board, &mut self.reports);
        let answer = (self.calls.run_year)(&self.file, book, year, board, reports);
        assert_eq!(self.tally.run_year(book, year, self.reports.len()), answer);
        let (number, calls) = answer;
        let told = if number == 0 { calls as usize * self.report.len() } else { 0 };
        assert!(self.reports[told..].iter().all(|&number| number == BEFORE));
        assert!(number == 0 || self.board == before, "a refused run changes nothing");
        let first = self.tally.months.len() - told / self.report.len();
        let reports = self.reports.chunks(self.report.len());
        for (past, report) in self.tally.months[first..].iter().zip(reports) {
            assert_eq!(report[self.deep_place()] as i128, self.tally.deep_loss(past));
        }
        self.assert_short_months();
        answer
    }

    /// Saves the board in a store.
    pub fn save(&self, store: &mut [u8], name: &[u8]) {
        assert_eq!((self.calls.save)(store, name, &self.board), (0, 0));
    }

    /// Goes on from a saved board, which is possible; the tally starts anew on it.
    pub fn recall(&mut self, store: &[u8], name: &[u8]) {
        assert_eq!((self.calls.recall)(store, name, &mut self.board), (0, 0));
        self.tally = Tally::on_board(&self.file, &self.board);
        self.assert_short_months();
    }

    /// The short months of every right, on the board and by the call, are the tally's.
    fn assert_short_months(&self) {
        for right in 0..self.rights {
            assert_eq!(self.word(right), self.tally.short_word(right), "right {right}");
            assert_eq!(self.short_months(right), [0, 0, self.tally.short_months(right)]);
        }
    }

    /// The word of a right, with a bit for each month of the water year.
    pub fn word(&self, right: usize) -> u64 {
        self.board[SHORT + right]
    }

    pub fn short_months(&self, right: usize) -> [u64; 3] {
        (self.calls.short_months)(&self.file, &self.board, right)
    }

    /// Makes the report of a month that the last year's run made, counted from 0, the one
    /// that is told below.
    pub fn show(&mut self, call: usize) {
        let length = self.report.len();
        self.report.copy_from_slice(&self.reports[length * call..length * (call + 1)]);
    }

    pub fn stock(&self) -> [u64; 4] {
        (self.calls.stock)(&self.file, &self.board)
    }

    /// Per right: from river, from storage, reason, station.
    pub fn grants(&self) -> Vec<[u64; 4]> {
        self.report[..report::flow(self.rights, 0)].as_chunks().0.to_vec()
    }

    pub fn flow(&self) -> Vec<u64> {
        self.of_rows(report::flow)
    }

    pub fn available(&self) -> Vec<u64> {
        self.of_rows(report::available)
    }

    pub fn evaporation(&self) -> &[u64] {
        &self.report[report::evaporation(self.rights, self.rows, 0)..self.deep_place()]
    }

    pub fn deep_loss(&self) -> u64 {
        self.report[self.deep_place()]
    }

    fn deep_place(&self) -> usize {
        report::deep_loss(self.rights, self.rows, self.reservoirs)
    }

    fn of_rows(&self, place: fn(usize, usize) -> usize) -> Vec<u64> {
        (0..self.rows).map(|row| self.report[place(self.rights, row)]).collect()
    }
}
