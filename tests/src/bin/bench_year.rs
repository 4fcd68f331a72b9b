//! Times a year's run of the static library, from October on, against its own twelve month
//! calls and against the plain engine's run: a small basin and the largest, on a tight and
//! on a loose river. All in turn, in one run.

use river_tests::engine::board::BOARD;
use river_tests::engine::book::{encode, WaterYear};
use river_tests::engine::records::{Basin, MONTHS};
use river_tests::generate::{largest, sheet, Rng};
use river_tests::{engine, examples, ffi};
use std::hint::black_box;
use std::time::Instant;

const ROUNDS: usize = 151;
/// A round repeats the years until it is long against the clock's step.
const SHORTEST_ROUND_NS: f64 = 200_000.0;
/// Years of a round, each with other runoff and the board that the one before left.
const YEARS: u32 = 5;

/// How much water there can be, in tenths of the demand, as in `bench_month`.
const TIGHT: u64 = 3;
const TIGHT_IF_SMALL: u64 = 15;
const LOOSE: u64 = 100;

fn main() {
    println!(
        "basin river stations rights native_ns months_ns plain_ns ratio_to_months ratio_to_plain"
    );
    bench("october", &examples::october(), TIGHT_IF_SMALL);
    bench("largest", &largest(), TIGHT);
}

fn bench(name: &str, basin: &Basin, tight: u64) {
    for (river, tenths) in [("tight", tight), ("loose", LOOSE)] {
        let mut job = Job::new(basin, tenths);
        job.assert_all_alike();
        let [native, months, plain, to_months, to_plain] = job.time();
        println!(
            "{name} {river} {} {} {native:.0} {months:.0} {plain:.0} {to_months:.3} {to_plain:.3}",
            basin.stations.len(),
            basin.rights.len(),
        );
    }
}

/// The years, and room for the board and the reports of one.
struct Job {
    file: Vec<u8>,
    book: Vec<u8>,
    years: Vec<WaterYear>,
    rows: usize,
    fresh: Vec<u64>,
    board: Vec<u64>,
    reports: Vec<u64>,
}

/// One year on the job's board and list.
type RunYear = fn(&mut Job, usize);

fn native(job: &mut Job, place: usize) {
    let Job { file, book, years, board, reports, .. } = job;
    let (file, book) = (black_box(&*file), black_box(&*book));
    assert_eq!(ffi::run_year(file, book, years[place].year, board, reports), (0, 12));
}

fn native_months(job: &mut Job, place: usize) {
    let Job { file, years, rows, board, reports, .. } = job;
    let length = reports.len() / MONTHS;
    let sheets = years[place].runoff.chunks_exact(*rows);
    for (sheet, report) in sheets.zip(reports.chunks_exact_mut(length)) {
        let (file, sheet) = (black_box(&*file), black_box(sheet));
        assert_eq!(ffi::month(file, sheet, board, report).0, 0);
    }
}

fn plain(job: &mut Job, place: usize) {
    let Job { file, book, years, board, reports, .. } = job;
    let (file, book) = (black_box(&*file), black_box(&*book));
    assert_eq!(engine::run_year(file, book, years[place].year, board, reports), (0, 12));
}

impl Job {
    fn new(basin: &Basin, tenths: u64) -> Job {
        let (file, rng) = (basin.encode(), &mut Rng::new(tenths));
        let mut fresh = vec![0; BOARD];
        assert_eq!(engine::fresh(&file, &mut fresh), (0, 0));
        let mut sheets = || (0..MONTHS).flat_map(|_| sheet(rng, basin, tenths)).collect();
        let years: Vec<_> =
            (0..YEARS).map(|n| WaterYear { year: 1964 + n, runoff: sheets() }).collect();
        Job {
            file,
            book: encode(&years),
            years,
            rows: basin.stations.len(),
            board: fresh.clone(),
            fresh,
            reports: vec![0; MONTHS * basin.report_length()],
        }
    }

    /// All years once, from the fresh board.
    fn run(&mut self, run_year: RunYear) {
        self.board.copy_from_slice(&self.fresh);
        for place in 0..self.years.len() {
            run_year(self, place);
            black_box(&self.reports);
        }
    }

    /// What is timed is the same work: the last board and the last reports.
    fn assert_all_alike(&mut self) {
        let [one, two, three] = [native, native_months, plain].map(|run_year: RunYear| {
            self.run(run_year);
            (self.board.clone(), self.reports.clone())
        });
        assert!(one == two && two == three, "the ways differ");
    }

    /// Medians: nanoseconds of a year each way, and the ratios of rounds that follow each
    /// other.
    fn time(&mut self) -> [f64; 5] {
        let once = self.round(1, plain) * YEARS as f64;
        let times = (SHORTEST_ROUND_NS / once).ceil() as usize;
        let mut all: [Vec<f64>; 5] = Default::default();
        for _ in 0..ROUNDS {
            let [one, two, three] =
                [native, native_months, plain].map(|run_year: RunYear| self.round(times, run_year));
            for (list, number) in all.iter_mut().zip([one, two, three, one / two, one / three]) {
                list.push(number);
            }
        }
        all.map(median)
    }

    /// Nanoseconds of a year over one round.
    fn round(&mut self, times: usize, run_year: RunYear) -> f64 {
        let start = Instant::now();
        for _ in 0..times {
            self.run(run_year);
        }
        start.elapsed().as_nanos() as f64 / (times as f64 * YEARS as f64)
    }
}

fn median(mut times: Vec<f64>) -> f64 {
    times.sort_by(f64::total_cmp);
    times[times.len() / 2]
}
