//! Times the month call of the static library against the plain one: a small basin
//! and the largest, on a tight and on a loose river, then how the cost grows with
//! the rights and with the rows. Both engines in turn, in one run.

use river_tests::engine::board::BOARD;
use river_tests::engine::records::Basin;
use river_tests::generate::{largest, sheet, straight, Rng};
use river_tests::{engine, examples, ffi};
use std::hint::black_box;
use std::time::Instant;

const ROUNDS: usize = 151;
/// A round repeats the run of months until it is long against the clock's step.
const SHORTEST_ROUND_NS: f64 = 100_000.0;
/// Months of a run: each has other runoff, and the board that the one before left. So many that
/// a processor cannot learn a small basin's course by heart.
const MONTHS: usize = 60;

/// How much water there can be, in tenths of the demand. A tight river is to leave part of
/// the rights short, not all: in a small basin one short right soon calls all others.
const TIGHT: u64 = 3;
const TIGHT_IF_SMALL: u64 = 15;
const LOOSE: u64 = 100;

fn main() {
    println!("basin river stations rights short_percent native_ns plain_ns ratio");
    bench("october", &examples::october(), TIGHT_IF_SMALL);
    bench("largest", &largest(), TIGHT);
    for rights in [16, 32, 64, 128, 256] {
        bench("by_rights", &thinned(rights), TIGHT);
    }
    for rows in [4, 8, 16, 32, 64] {
        bench("by_rows", &straight(rows), TIGHT);
    }
}

/// The largest basin with some of its rights, taken evenly from the list.
fn thinned(rights: usize) -> Basin {
    let mut basin = largest();
    let step = basin.rights.len() / rights;
    basin.rights = basin.rights.into_iter().step_by(step).collect();
    basin
}

fn bench(name: &str, basin: &Basin, tight: u64) {
    for (river, tenths) in [("tight", tight), ("loose", LOOSE)] {
        let mut job = Job::new(basin, tenths);
        let short = job.assert_both_alike() as f64 / (MONTHS * basin.rights.len()) as f64;
        let [native_ns, plain_ns, ratio] = job.time();
        println!(
            "{name} {river} {} {} {:.1} {native_ns:.0} {plain_ns:.0} {ratio:.3}",
            basin.stations.len(),
            basin.rights.len(),
            100.0 * short
        );
    }
}

/// The run of months, and room for the board and the report of both engines.
struct Job {
    file: Vec<u8>,
    sheets: Vec<Vec<u32>>,
    fresh: Vec<u64>,
    board: Vec<u64>,
    report: Vec<u64>,
}

type MonthCall = fn(&[u8], &[u32], &mut [u64], &mut [u64]) -> engine::Answer;

impl Job {
    fn new(basin: &Basin, tenths: u64) -> Job {
        let (file, rng) = (basin.encode(), &mut Rng::new(tenths));
        let mut fresh = vec![0; BOARD];
        assert_eq!(engine::fresh(&file, &mut fresh), (0, 0));
        Job {
            file,
            sheets: (0..MONTHS).map(|_| sheet(rng, basin, tenths)).collect(),
            board: fresh.clone(),
            fresh,
            report: vec![0; basin.report_length()],
        }
    }

    /// Runs the months once, from the fresh board; answers how many rights were short.
    fn run(&mut self, month: MonthCall) -> u64 {
        self.board.copy_from_slice(&self.fresh);
        let mut short = 0;
        for sheet in &self.sheets {
            let (file, sheet) = (black_box(&self.file), black_box(sheet));
            let (number, place) = month(file, sheet, &mut self.board, &mut self.report);
            assert_eq!(number, 0, "refused at {place}");
            black_box(&self.report);
            short += place;
        }
        short
    }

    /// What is timed is the same work: answers, the last board and the last report.
    fn assert_both_alike(&mut self) -> u64 {
        let native = (self.run(ffi::month), self.board.clone(), self.report.clone());
        let plain = (self.run(engine::month), self.board.clone(), self.report.clone());
        assert!(native == plain, "the engines differ");
        plain.0
    }

    /// Medians: nanoseconds of a native call, of a plain one, and the ratio of two rounds that
    /// follow each other, which a machine that grows slower or faster meanwhile leaves alone.
    fn time(&mut self) -> [f64; 3] {
        let once = self.round(1, engine::month) * MONTHS as f64;
        let times = (SHORTEST_ROUND_NS / once).ceil() as usize;
        let (mut native, mut plain, mut ratios) = (Vec::new(), Vec::new(), Vec::new());
        for _ in 0..ROUNDS {
            native.push(self.round(times, ffi::month));
            plain.push(self.round(times, engine::month));
            ratios.push(native[native.len() - 1] / plain[plain.len() - 1]);
        }
        [native, plain, ratios].map(median)
    }

    /// Nanoseconds of a call over one round. The copy of the fresh board is part of it on
    /// both sides, once in a run of months.
    fn round(&mut self, times: usize, month: MonthCall) -> f64 {
        let start = Instant::now();
        for _ in 0..times {
            black_box(self.run(month));
        }
        start.elapsed().as_nanos() as f64 / (times * MONTHS) as f64
    }
}

fn median(mut times: Vec<f64>) -> f64 {
    times.sort_by(f64::total_cmp);
    times[times.len() / 2]
}
