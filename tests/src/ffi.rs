//! The static library's C functions, as `include/river.h` has them, and safe wrappers.

use crate::engine::Answer;

mod c {
    #[repr(C)]
    pub struct Answer {
        pub number: u64,
        pub place: u64,
    }

    #[repr(C)]
    pub struct Sums {
        pub number: u64,
        pub place: u64,
        pub storage: u64,
        pub due: u64,
    }

    #[repr(C)]
    pub struct Months {
        pub number: u64,
        pub place: u64,
        pub months: u64,
    }

    extern "C" {
        pub fn river_check(file: *const u8, len: usize) -> u32;
        pub fn river_verdict(file: *const u8, len: usize) -> Answer;
        pub fn river_fresh(
            file: *const u8,
            len: usize,
            board: *mut u64,
            board_len: usize,
        ) -> Answer;
        pub fn river_month(
            file: *const u8,
            len: usize,
            runoff: *const u32,
            runoff_len: usize,
            board: *mut u64,
            board_len: usize,
            report: *mut u64,
            report_len: usize,
        ) -> Answer;
        pub fn river_stock(
            file: *const u8,
            len: usize,
            board: *const u64,
            board_len: usize,
        ) -> Sums;
        pub fn river_short_months(
            file: *const u8,
            len: usize,
            board: *const u64,
            board_len: usize,
            right: usize,
        ) -> Months;
        pub fn river_find_year(
            file: *const u8,
            len: usize,
            book: *const u8,
            book_len: usize,
            year: u32,
        ) -> Answer;
        pub fn river_run_year(
            file: *const u8,
            len: usize,
            book: *const u8,
            book_len: usize,
            year: u32,
            board: *mut u64,
            board_len: usize,
            reports: *mut u64,
            reports_len: usize,
        ) -> Answer;
        pub fn river_save(
            store: *mut u8,
            store_len: usize,
            name: *const u8,
            name_len: usize,
            board: *const u64,
            board_len: usize,
        ) -> Answer;
        pub fn river_recall(
            store: *const u8,
            store_len: usize,
            name: *const u8,
            name_len: usize,
            board: *mut u64,
            board_len: usize,
        ) -> Answer;
        pub fn river_drop(
            store: *mut u8,
            store_len: usize,
            name: *const u8,
            name_len: usize,
        ) -> Answer;
    }
}

// In every call each pointer goes with the length of its slice, and a slice that may be
// written lies apart from all others.

/// Both numbers with all their bits.
fn whole(answer: c::Answer) -> Answer {
    (answer.number, answer.place)
}

/// The refusal number alone.
pub fn check(file: &[u8]) -> u32 {
    unsafe { c::river_check(file.as_ptr(), file.len()) }
}

/// Number and place of what is wrong with a file.
pub fn verdict(file: &[u8]) -> Answer {
    whole(unsafe { c::river_verdict(file.as_ptr(), file.len()) })
}

/// Writes the fresh board.
pub fn fresh(file: &[u8], board: &mut [u64]) -> Answer {
    whole(unsafe { c::river_fresh(file.as_ptr(), file.len(), board.as_mut_ptr(), board.len()) })
}

/// Runs a month on `board` and tells it in `report`; answers 0 and the number of rights
/// short, or a refusal.
pub fn month(file: &[u8], runoff: &[u32], board: &mut [u64], report: &mut [u64]) -> Answer {
    whole(unsafe {
        c::river_month(
            file.as_ptr(),
            file.len(),
            runoff.as_ptr(),
            runoff.len(),
            board.as_mut_ptr(),
            board.len(),
            report.as_mut_ptr(),
            report.len(),
        )
    })
}

/// Number, place, sum of storages, sum of dues.
pub fn stock(file: &[u8], board: &[u64]) -> [u64; 4] {
    let sums = unsafe { c::river_stock(file.as_ptr(), file.len(), board.as_ptr(), board.len()) };
    [sums.number, sums.place, sums.storage, sums.due]
}

/// Number, place, and in how many months of the board's water year a right was short.
pub fn short_months(file: &[u8], board: &[u64], right: usize) -> [u64; 3] {
    let told = unsafe {
        c::river_short_months(file.as_ptr(), file.len(), board.as_ptr(), board.len(), right)
    };
    [told.number, told.place, told.months]
}

/// Number and place of the look-up of a year in a book.
pub fn find_year(file: &[u8], book: &[u8], year: u32) -> Answer {
    whole(unsafe { c::river_find_year(file.as_ptr(), file.len(), book.as_ptr(), book.len(), year) })
}

/// Runs what is left of a year on `board` and tells its months in `reports`; answers 0 and
/// the number of months run, or a refusal.
pub fn run_year(
    file: &[u8],
    book: &[u8],
    year: u32,
    board: &mut [u64],
    reports: &mut [u64],
) -> Answer {
    whole(unsafe {
        c::river_run_year(
            file.as_ptr(),
            file.len(),
            book.as_ptr(),
            book.len(),
            year,
            board.as_mut_ptr(),
            board.len(),
            reports.as_mut_ptr(),
            reports.len(),
        )
    })
}

/// Saves a board in a store under a name; 0, 0 or a refusal.
pub fn save(store: &mut [u8], name: &[u8], board: &[u64]) -> Answer {
    whole(unsafe {
        c::river_save(
            store.as_mut_ptr(),
            store.len(),
            name.as_ptr(),
            name.len(),
            board.as_ptr(),
            board.len(),
        )
    })
}

/// Puts the numbers saved under a name on a board; 0, 0 or a refusal.
pub fn recall(store: &[u8], name: &[u8], board: &mut [u64]) -> Answer {
    whole(unsafe {
        c::river_recall(
            store.as_ptr(),
            store.len(),
            name.as_ptr(),
            name.len(),
            board.as_mut_ptr(),
            board.len(),
        )
    })
}

/// Drops the board of a name; 0, 0 or a refusal.
pub fn drop_name(store: &mut [u8], name: &[u8]) -> Answer {
    whole(unsafe { c::river_drop(store.as_mut_ptr(), store.len(), name.as_ptr(), name.len()) })
}
