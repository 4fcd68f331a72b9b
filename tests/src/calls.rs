//! The calls of the rules, by each engine that is there: the plain one and,
//! under the feature `native`, the static library. A test worked out by hand runs
//! over all of them, so that its numbers are asked of each.

use crate::engine::{self, Answer};
#[cfg(feature = "native")]
use crate::ffi;

pub struct Calls {
    /// Whose calls they are, for messages.
    pub by: &'static str,
    pub check: fn(&[u8]) -> Answer,
    pub fresh: fn(&[u8], &mut [u64]) -> Answer,
    pub month: fn(&[u8], &[u32], &mut [u64], &mut [u64]) -> Answer,
    pub stock: fn(&[u8], &[u64]) -> [u64; 4],
    pub short_months: fn(&[u8], &[u64], usize) -> [u64; 3],
    pub find_year: fn(&[u8], &[u8], u32) -> Answer,
    pub run_year: fn(&[u8], &[u8], u32, &mut [u64], &mut [u64]) -> Answer,
    pub save: fn(&mut [u8], &[u8], &[u64]) -> Answer,
    pub recall: fn(&[u8], &[u8], &mut [u64]) -> Answer,
    pub drop_name: fn(&mut [u8], &[u8]) -> Answer,
}

pub const ENGINES: &[Calls] = &[
    Calls {
        by: "the plain engine",
        check: engine::check,
        fresh: engine::fresh,
        month: engine::month,
        stock: engine::stock,
        short_months: engine::short_months,
        find_year: engine::find_year,
        run_year: engine::run_year,
        save: engine::save,
        recall: engine::recall,
        drop_name: engine::drop_name,
    },
    #[cfg(feature = "native")]
    Calls {
        by: "the static library",
        check: ffi::verdict,
        fresh: ffi::fresh,
        month: ffi::month,
        stock: ffi::stock,
        short_months: ffi::short_months,
        find_year: ffi::find_year,
        run_year: ffi::run_year,
        save: ffi::save,
        recall: ffi::recall,
        drop_name: ffi::drop_name,
    },
];

/// Runs a test by every engine. Which one it was stands in the output of a test
/// that fails.
pub fn by_each(test: impl Fn(&'static Calls)) {
    for calls in ENGINES {
        println!("by {}", calls.by);
        test(calls);
    }
}
