//! Times the check of the static library against the plain one, on a smallest
//! and on the largest file, interleaved in one run.

use river_tests::{engine, examples, ffi, generate};
use std::hint::black_box;
use std::time::Instant;

const ROUNDS: usize = 401;
/// Calls per round, so that a round is long against the clock's step.
const SHORTEST_ROUND_NS: f64 = 50_000.0;

fn main() {
    println!("file bytes native_ns plain_ns ratio");
    let smallest =
        engine::records::Basin { stations: examples::stations(&[(1, 1)]), ..Default::default() };
    bench("smallest", &smallest.encode());
    bench("largest", &generate::largest().encode());
}

fn bench(name: &str, file: &[u8]) {
    let native = |file: &[u8]| ffi::check(file) as u64;
    let plain = |file: &[u8]| engine::check(file).0;
    assert_eq!(native(file), 0, "the library refuses the {name} file");
    assert_eq!(plain(file), 0);
    let calls = (SHORTEST_ROUND_NS / round(1000, file, plain)).ceil() as u32;
    let (mut native_ns, mut plain_ns) = (Vec::new(), Vec::new());
    for _ in 0..ROUNDS {
        native_ns.push(round(calls, file, native));
        plain_ns.push(round(calls, file, plain));
    }
    let (native_ns, plain_ns) = (median(native_ns), median(plain_ns));
    let ratio = native_ns / plain_ns;
    println!("{name} {} {native_ns:.1} {plain_ns:.1} {ratio:.3}", file.len());
}

/// Nanoseconds per call over one round.
fn round(calls: u32, file: &[u8], check: impl Fn(&[u8]) -> u64) -> f64 {
    let start = Instant::now();
    for _ in 0..calls {
        black_box(check(black_box(file)));
    }
    start.elapsed().as_nanos() as f64 / calls as f64
}

fn median(mut times: Vec<f64>) -> f64 {
    times.sort_by(f64::total_cmp);
    times[times.len() / 2]
}
