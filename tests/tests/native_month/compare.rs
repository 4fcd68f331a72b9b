//! One month call by both engines: answer, whole board, whole report, and the numbers
//! that lie beside both; then a right's short months on the board that is left.

use river_tests::asked::Asked;
use river_tests::engine::sections::find_sections;
use river_tests::engine::slip::Faithful;
use river_tests::engine::{month, report, Answer};
use river_tests::ffi;
use river_tests::generate::{River, Rng};
use river_tests::lent::Lent;
use std::fmt::Display;

/// What a month call is lent.
#[derive(Clone)]
pub struct Call {
    pub file: Vec<u8>,
    pub runoff: Vec<u32>,
    pub board: Vec<u64>,
    pub report: Vec<u64>,
}

impl Call {
    /// A call that the rules accept. The report has any content, and often more
    /// places than it needs.
    pub fn of(river: &River, board: &[u64], rng: &mut Rng) -> Call {
        let length = river.basin.report_length() + *rng.pick(&[0, 0, 1, 2, 50, report::LONGEST]);
        Call {
            file: river.file.clone(),
            runoff: river.runoff(rng),
            board: board.to_vec(),
            report: (0..length).map(|_| rng.word()).collect(),
        }
    }
}

#[derive(Default, Debug)]
pub struct Compared {
    pub calls: usize,
    /// Calls by their number: 0 accepted, 1 to 8 refused.
    pub numbers: [usize; 9],
    /// Rights of accepted calls by reason.
    pub reasons: [usize; 4],
    /// Accepted calls in which water went deep.
    pub deep: usize,
    /// After every call, of one right.
    pub asked: Asked,
}

impl Compared {
    /// Runs a call by both engines. Answers number and place; the board of an accepted
    /// call is left in `call`.
    pub fn compare(&mut self, call: &mut Call, at: &dyn Display) -> Answer {
        let (mut board, mut report) = (call.board.clone(), call.report.clone());
        let answer = month(&call.file, &call.runoff, &mut board, &mut report);
        let (mut native_board, mut native_report) = (Lent::of(&call.board), Lent::of(&call.report));
        let native =
            ffi::month(&call.file, &call.runoff, native_board.list(), native_report.list());
        assert_eq!(native, answer, "{at}: the answer");
        self.calls += 1;
        self.numbers[answer.0 as usize] += 1;
        let rights = find_sections(&Faithful, &call.file).map_or(0, |found| found.rights.len());
        self.asked.compare_next(&call.file, &board, rights, at);
        if answer.0 != 0 {
            native_board.assert_is(&call.board, "refused, board", at);
            native_report.assert_is(&call.report, "refused, report", at);
            return answer;
        }
        native_report.assert_is(&report, "report", at);
        native_board.assert_is(&board, "board", at);
        self.count(&call.file, &report);
        call.board = board;
        call.report = report;
        answer
    }

    /// What the report of an accepted call tells.
    fn count(&mut self, file: &[u8], report: &[u64]) {
        let Ok(sections) = find_sections(&Faithful, file) else { return };
        let (rights, rows) = (sections.rights.len(), sections.stations.len());
        (0..rights).for_each(|place| self.reasons[report[report::reason(place)] as usize] += 1);
        let deep_loss = report[report::deep_loss(rights, rows, sections.reservoirs.len())];
        self.deep += (deep_loss > 0) as usize;
    }

    /// native.sh adds up the counts of these lines.
    pub fn print(&self, what: &str) {
        let refused: usize = self.numbers[1..].iter().sum();
        println!(
            "{} calls, {refused} refused: {what}, by number 0 to 8 {:?}; {} with deep loss; rights \
             by reason 0 to 3 {:?}",
            self.calls, self.numbers, self.deep, self.reasons
        );
        self.asked.print(what);
    }
}
