//! The stack that the static library's calls need, and the plain engine's month and year
//! beside them. Feature `native`; counted on x86-64 alone.
#![cfg(target_arch = "x86_64")]

use river_tests::damage::{rich_base, BROKEN};
use river_tests::engine::board::BOARD;
use river_tests::engine::book::{encode, WaterYear};
use river_tests::engine::records::{Basin, MOST_STATIONS};
use river_tests::engine::report::LONGEST;
use river_tests::engine::{fresh, month, run_year};
use river_tests::ffi;
use river_tests::generate::{any_name, any_river, any_store, largest, sheet, straight, Rng};
use std::arch::asm;
use std::collections::BTreeMap;

/// The month's own arrays and what else it needs: a list of 64 numbers more goes beyond.
/// `include/river.h` names a higher one, so that it need not follow every change.
const LIMIT: usize = 2560;

/// The stack that a call is made on, more than any of them needs, the plain ones too.
const STACK: usize = 1 << 16;

const PLAIN: &str = "plain month";
const PLAIN_YEAR: &str = "plain run_year";

fn limit(name: &str) -> usize {
    match name {
        PLAIN | PLAIN_YEAR => STACK,
        _ => LIMIT,
    }
}

/// Entered on the other stack.
extern "sysv64" fn enter(call: &mut &mut dyn FnMut()) {
    call()
}

/// How far down a stack that holds `filler` alone is written to when `call` is made on it.
fn depth_over(filler: u8, mut call: &mut dyn FnMut()) -> usize {
    let mut stack = vec![filler; STACK];
    // A stack grows down from its end, which is aligned to 16 bytes where a call is made.
    let end = (stack.as_mut_ptr() as usize + STACK) & !15;
    unsafe {
        asm!(
            "xchg rsp, r12",
            "call {enter}",
            "mov rsp, r12",
            enter = in(reg) enter as extern "sysv64" fn(&mut &mut dyn FnMut()),
            inout("r12") end => _,
            in("rdi") &mut call,
            clobber_abi("sysv64"),
        );
    }
    let untouched = stack.iter().take_while(|&&byte| byte == filler).count();
    assert!(untouched > 0, "the stack was too small");
    end - (stack.as_ptr() as usize + untouched)
}

/// The most that each call needed, with the few bytes of the closure that makes it.
#[derive(Default)]
struct Deepest(BTreeMap<&'static str, usize>);

impl Deepest {
    /// By two fillers, since a call may happen to write one of them.
    fn see(&mut self, name: &'static str, mut call: impl FnMut()) {
        let deepest = self.0.entry(name).or_default();
        for filler in [0xa5, 0x5a] {
            *deepest = depth_over(filler, &mut call).max(*deepest);
        }
    }

    fn see_all(&mut self, file: &[u8], runoff: &[u32], board: &[u64]) {
        let (mut lent, mut told) = (board.to_vec(), vec![0; LONGEST]);
        self.see("check", || _ = ffi::check(file));
        self.see("verdict", || _ = ffi::verdict(file));
        self.see("stock", || _ = ffi::stock(file, board));
        for right in [0, usize::MAX] {
            self.see("short_months", || _ = ffi::short_months(file, board, right));
        }
        self.see("fresh", || _ = ffi::fresh(file, &mut lent));
        lent.copy_from_slice(board);
        self.see("month", || _ = ffi::month(file, runoff, &mut lent, &mut told));
        lent.copy_from_slice(board);
        self.see(PLAIN, || _ = month(file, runoff, &mut lent, &mut told));
    }

    /// A year that a book lists, and one that it does not.
    fn see_book(&mut self, file: &[u8], years: &[WaterYear], board: &[u64]) {
        let (mut lent, mut told) = (board.to_vec(), vec![0; 12 * LONGEST]);
        let book = encode(years);
        for year in years.iter().map(|year| year.year).chain([1799]) {
            self.see("find_year", || _ = ffi::find_year(file, &book, year));
            // Each call is made twice, and a year that was run leaves another one to run.
            self.see("run_year", || {
                lent.copy_from_slice(board);
                ffi::run_year(file, &book, year, &mut lent, &mut told);
            });
            self.see(PLAIN_YEAR, || {
                lent.copy_from_slice(board);
                run_year(file, &book, year, &mut lent, &mut told);
            });
        }
    }

    /// Any name in a store, there or not.
    fn see_store(&mut self, rng: &mut Rng) {
        let (mut store, mut board) = (any_store(rng), vec![7; BOARD]);
        for _ in 0..5 {
            let name = any_name(rng);
            self.see("save", || _ = ffi::save(&mut store, &name, &board));
            self.see("recall", || _ = ffi::recall(&store, &name, &mut board));
            self.see("drop", || _ = ffi::drop_name(&mut store, &name));
        }
    }

    /// Two years of a basin, from its fresh board.
    fn see_years(&mut self, basin: &Basin, tenths: u64) {
        let (file, rng) = (basin.encode(), &mut Rng::new(3));
        let mut board = vec![0; BOARD];
        assert_eq!(fresh(&file, &mut board), (0, 0));
        for _ in 0..24 {
            let runoff = sheet(rng, basin, tenths);
            self.see_all(&file, &runoff, &board);
            assert_eq!(month(&file, &runoff, &mut board, &mut [0; LONGEST]).0, 0);
        }
        let sheets = |rng: &mut Rng| (0..12).flat_map(|_| sheet(rng, basin, tenths)).collect();
        let years = [1964, 1967].map(|year| WaterYear { year, runoff: sheets(rng) });
        self.see_book(&file, &years, &board);
    }
}

#[test]
fn the_stack_is_counted() {
    let mut deepest = Deepest::default();
    deepest.see("an array", || _ = std::hint::black_box([1u8; 1000]));
    let bytes = deepest.0["an array"];
    assert!((1000..1200).contains(&bytes), "{bytes}");
}

#[test]
fn a_call_needs_little_stack() {
    let mut deepest = Deepest::default();
    let rng = &mut Rng::new(31);
    for _ in 0..300 {
        let river = any_river(rng);
        let board = river.possible_board(rng);
        deepest.see_all(&river.file, &river.runoff(rng), &board);
        deepest.see_book(&river.file, &river.book(rng, 2), &board);
    }
    (0..100).for_each(|_| deepest.see_store(rng));
    for &(_, _, edit) in BROKEN.iter() {
        let mut basin = rich_base();
        edit(&mut basin, rng);
        deepest.see_all(&basin.encode(), &[0; MOST_STATIONS], &[0; BOARD]);
        deepest.see_book(&basin.encode(), &[], &[0; BOARD]);
    }
    for basin in [largest(), straight(MOST_STATIONS)] {
        for tenths in [3, 100] {
            deepest.see_years(&basin, tenths);
        }
    }
    println!("bytes of stack: {:?}", deepest.0);
    for (name, bytes) in deepest.0 {
        assert!(bytes < limit(name), "{name} needs {bytes} bytes of stack");
    }
}
