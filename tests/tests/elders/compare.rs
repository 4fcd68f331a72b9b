//! A month of both basins of a pair by one engine, and what was met in many.

use crate::pairs::{Call, Pair, CHANGES, SAME};
use river_tests::engine::board::NEXT_MONTH;
use river_tests::engine::records::MOST_RIGHTS;
use river_tests::engine::{report, Answer};

/// The month call of an engine, right or wrong.
pub type MonthCall<'a> = &'a dyn Fn(&[u8], &[u32], &mut [u64], &mut [u64]) -> Answer;

/// The two amounts of a right, its reason and its station.
pub fn line(report: &[u64], right: usize) -> [u64; 4] {
    [report::from_river, report::from_storage, report::reason, report::station]
        .map(|place| report[place(right)])
}

/// What the two calls answer, and what they leave.
pub struct Told {
    pub answer: Answer,
    board: Vec<u64>,
    report: Vec<u64>,
}

impl Told {
    fn of(month: MonthCall, file: &[u8], call: &Call, report: &[u64]) -> Told {
        let (mut board, mut report) = (call.board.clone(), report.to_vec());
        let answer = month(file, &call.runoff, &mut board, &mut report);
        Told { answer, board, report }
    }

    pub fn line(&self, right: usize) -> [u64; 4] {
        line(&self.report, right)
    }
}

impl Pair {
    pub fn told(&self, month: MonthCall, call: &Call) -> [Told; 2] {
        [0, 1].map(|which| Told::of(month, &self.files[which], call, &call.reports[which]))
    }

    /// The first elder right whose line is not the same in both.
    pub fn differs(&self, [one, other]: &[Told; 2]) -> Option<usize> {
        (0..self.elders).find(|&right| one.line(right) != other.line(right))
    }

    /// What differs beside, in the order of [`ELSEWHERE`].
    fn elsewhere(&self, [one, other]: &[Told; 2]) -> [bool; ELSEWHERE.len()] {
        let [rights, other_rights] = self.rights();
        let mut later = self.elders..rights.min(other_rights);
        let lines = later.any(|right| one.line(right) != other.line(right));
        let rows = self.rows(one, 0) != self.rows(other, 1);
        let shorts = one.answer != other.answer;
        let board = one.board != other.board;
        [lines || rows || shorts || board, lines, rows, shorts, board]
    }

    fn rights(&self) -> [usize; 2] {
        self.basins.each_ref().map(|basin| basin.rights.len())
    }

    /// Flow and available flow of every row.
    fn rows<'a>(&self, told: &'a Told, which: usize) -> &'a [u64] {
        let (rights, rows) = (self.rights()[which], self.basins[which].stations.len());
        &told.report[report::flow(rights, 0)..report::flow(rights, rows)]
    }
}

/// Where the two months of a pair may differ, beside the lines of the elder rights.
const ELSEWHERE: [&str; 5] =
    ["anywhere", "in a later line", "in flows", "in the number short", "in the board"];

#[derive(Default, Debug)]
pub struct Met {
    pub pairs: usize,
    pub months: usize,
    /// Lines of elder rights, by kind and reason; no kind is 0.
    pub lines: [[usize; 4]; 5],
    /// By change, months that differ elsewhere.
    pub differs: [[usize; ELSEWHERE.len()]; CHANGES.len()],
    /// Pairs without elder rights; with some, and no others in one of the two; with unlike
    /// numbers of rights; with 256 in one of the two.
    pub no_elders: usize,
    pub all_elders: usize,
    pub unlike_numbers: usize,
    pub largest: usize,
    /// Months on the fresh board; months that clear what the year before has left.
    pub fresh: usize,
    pub octobers: usize,
}

impl Met {
    pub fn count_pair(&mut self, pair: &Pair) {
        let [one, other] = pair.rights();
        self.pairs += 1;
        self.no_elders += (pair.elders == 0) as usize;
        self.all_elders += (pair.elders > 0 && pair.elders == one.min(other)) as usize;
        self.unlike_numbers += (one != other) as usize;
        self.largest += (one.max(other) == MOST_RIGHTS) as usize;
        self.fresh += pair.fresh as usize;
    }

    pub fn count_month(&mut self, pair: &Pair, call: &Call, told: &[Told; 2]) {
        self.months += 1;
        self.octobers += (call.board[NEXT_MONTH] == 0) as usize;
        for (place, right) in pair.basins[0].rights[..pair.elders].iter().enumerate() {
            let reason = told[0].report[report::reason(place)];
            self.lines[right.kind as usize][reason as usize] += 1;
        }
        let elsewhere = pair.elsewhere(told);
        let times = self.differs[pair.change].iter_mut().zip(elsewhere);
        times.for_each(|(times, differs)| *times += differs as usize);
        assert!(!elsewhere[0] || CHANGES[pair.change].0 != SAME, "{}: differs", pair.at());
    }

    pub fn print(&self) {
        let lines: usize = self.lines.iter().flatten().sum();
        println!(
            "{} pairs of basins, {} months, {lines} lines of elder rights, by kind 1 to 4 and \
             reason 0 to 3 {:?}",
            self.pairs,
            self.months,
            &self.lines[1..]
        );
        println!(
            "    {} pairs without elder rights, {} with no others in one of the two, {} with \
             unlike numbers of rights, {} with 256; {} months on the fresh board, {} Octobers",
            self.no_elders,
            self.all_elders,
            self.unlike_numbers,
            self.largest,
            self.fresh,
            self.octobers
        );
        println!("    months that differ {}", ELSEWHERE.join(", "));
        for ((change, _), times) in CHANGES.iter().zip(&self.differs) {
            println!("    {times:?}: {change}");
        }
    }
}
