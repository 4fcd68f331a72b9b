//! Times save and recall of the static library against the plain engine's and against a copy
//! of as many bytes, in the first and in the last entry of a full store, which lies in the
//! cache; and a recall that finds no name. All in turn, in one run.

use river_tests::engine::board::BOARD;
use river_tests::engine::store::{board_at, BOARD_BYTES, STORE_BYTES};
use river_tests::generate::{any_numbers, Rng, NAMES};
use river_tests::{engine, ffi};
use std::hint::black_box;
use std::time::Instant;

const ROUNDS: usize = 401;
/// A round repeats the call until it is long against the clock's step.
const SHORTEST_ROUND_NS: f64 = 50_000.0;

/// A copy's time depends on how far apart, within a page, its two ends lie: from round to
/// round the board lies elsewhere, so many numbers further on.
const PLACES: usize = 8;
const APART: usize = 64;

/// The place of a name that no entry has.
const NOT_THERE: usize = 4;

fn main() {
    println!("call entry native_ns plain_ns copy_ns ratio_to_plain plain_to_copy");
    for entry in [0, 3] {
        bench("save", entry, [native_save, plain_save, copy_to_store]);
        bench("recall", entry, [native_recall, plain_recall, copy_from_store]);
    }
    // Nothing is copied, so that the third way is the round's own time.
    bench("recall_not_there", NOT_THERE, [native_not_there, plain_not_there, |_, _, _| ()]);
}

/// One call on a store, for the name of an entry and a board.
type Call = fn(&mut [u8], usize, &mut [u64]);

fn native_save(store: &mut [u8], entry: usize, board: &mut [u64]) {
    assert_eq!(ffi::save(store, &NAMES[entry], board), (0, 0));
}

fn plain_save(store: &mut [u8], entry: usize, board: &mut [u64]) {
    assert_eq!(engine::save(store, &NAMES[entry], board), (0, 0));
}

fn copy_to_store(store: &mut [u8], entry: usize, board: &mut [u64]) {
    store[board_at(entry)].copy_from_slice(bytes_of(board));
}

fn native_recall(store: &mut [u8], entry: usize, board: &mut [u64]) {
    assert_eq!(ffi::recall(store, &NAMES[entry], board), (0, 0));
}

fn plain_recall(store: &mut [u8], entry: usize, board: &mut [u64]) {
    assert_eq!(engine::recall(store, &NAMES[entry], board), (0, 0));
}

fn copy_from_store(store: &mut [u8], entry: usize, board: &mut [u64]) {
    bytes_of(board).copy_from_slice(&store[board_at(entry)]);
}

fn native_not_there(store: &mut [u8], entry: usize, board: &mut [u64]) {
    assert_eq!(ffi::recall(store, &NAMES[entry], board), (11, 0));
}

fn plain_not_there(store: &mut [u8], entry: usize, board: &mut [u64]) {
    assert_eq!(engine::recall(store, &NAMES[entry], board), (11, 0));
}

/// A board as it lies in memory, which is as a store has it where the least byte comes first.
fn bytes_of(board: &mut [u64]) -> &mut [u8] {
    assert!(board.len() == BOARD && cfg!(target_endian = "little"));
    unsafe { std::slice::from_raw_parts_mut(board.as_mut_ptr().cast(), BOARD_BYTES) }
}

fn bench(name: &str, entry: usize, ways: [Call; 3]) {
    let mut job = Job::new(entry);
    job.assert_all_alike(ways);
    let [native, plain, copy, to_plain, to_copy] = job.time(ways);
    println!("{name} {entry} {native:.1} {plain:.1} {copy:.1} {to_plain:.3} {to_copy:.3}");
}

/// A full store, an entry's number, and room for a board at each of its places.
#[derive(Clone)]
struct Job {
    store: Vec<u8>,
    entry: usize,
    room: Vec<u64>,
}

impl Job {
    fn new(entry: usize) -> Job {
        let rng = &mut Rng::new(1226);
        let mut store = vec![0; STORE_BYTES];
        for name in &NAMES[..4] {
            assert_eq!(engine::save(&mut store, name, &any_numbers(rng)), (0, 0));
        }
        Job { store, entry, room: (0..BOARD + PLACES * APART).map(|_| rng.word()).collect() }
    }

    /// What is timed is the same work: all ways leave the same bytes.
    fn assert_all_alike(&self, ways: [Call; 3]) {
        for place in 0..PLACES {
            let [native, plain, copied] = ways.map(|call| {
                let mut job = self.clone();
                job.round(1, place, call);
                (job.store, job.room)
            });
            assert!(native == plain && plain == copied, "the ways differ");
        }
    }

    /// Medians: nanoseconds of a call each way, and the ratios of rounds that follow each
    /// other, of native to plain and of plain to the copy.
    fn time(&mut self, ways: [Call; 3]) -> [f64; 5] {
        let times = (SHORTEST_ROUND_NS / self.round(1000, 0, ways[1])).ceil() as usize;
        let mut all: [Vec<f64>; 5] = Default::default();
        for round in 0..ROUNDS {
            let [native, plain, copy] = ways.map(|call| self.round(times, round % PLACES, call));
            let numbers = [native, plain, copy, native / plain, plain / copy];
            all.iter_mut().zip(numbers).for_each(|(list, number)| list.push(number));
        }
        all.map(median)
    }

    /// Nanoseconds of a call over one round, with the board at a place.
    fn round(&mut self, times: usize, place: usize, call: Call) -> f64 {
        let Job { store, entry, room } = self;
        let board = &mut room[place * APART..][..BOARD];
        let start = Instant::now();
        for _ in 0..times {
            black_box(call)(black_box(store), black_box(*entry), black_box(&mut *board));
        }
        start.elapsed().as_nanos() as f64 / times as f64
    }
}

fn median(mut times: Vec<f64>) -> f64 {
    times.sort_by(f64::total_cmp);
    times[times.len() / 2]
}
