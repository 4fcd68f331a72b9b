//! A month from Rust: the fresh board of a basin, its first month with the runoff named, and what is stored, due and lost
//! after it. `include/river.h` says what the answers and the places of board and report mean.

use std::error::Error;
use std::{env, fs};

mod river {
    pub const BOARD_LENGTH: usize = 1226;
    /// Enough for any basin.
    pub const REPORT_LONGEST: usize = 4 * 256 + 2 * 64 + 8 + 1;

    #[repr(C)]
    pub struct Answer {
        pub number: u64,
        pub place: u64,
    }

    #[repr(C)]
    pub struct Sums {
        pub number: u64,
        pub place: u64,
        pub storage: u64,
        pub due: u64,
    }

    mod c {
        use super::{Answer, Sums};

        extern "C" {
            pub fn river_fresh(
                file: *const u8,
                length: usize,
                board: *mut u64,
                board_length: usize,
            ) -> Answer;
            pub fn river_month(
                file: *const u8,
                length: usize,
                runoff: *const u32,
                runoff_length: usize,
                board: *mut u64,
                board_length: usize,
                report: *mut u64,
                report_length: usize,
            ) -> Answer;
            pub fn river_stock(
                file: *const u8,
                length: usize,
                board: *const u64,
                board_length: usize,
            ) -> Sums;
        }
    }

    // Each pointer and length is that of a slice, and a slice that may be written lies apart from every other: that is
    // all that the calls ask for.

    pub fn fresh(file: &[u8], board: &mut [u64]) -> Answer {
        unsafe { c::river_fresh(file.as_ptr(), file.len(), board.as_mut_ptr(), board.len()) }
    }

    pub fn month(file: &[u8], runoff: &[u32], board: &mut [u64], report: &mut [u64]) -> Answer {
        unsafe {
            c::river_month(
                file.as_ptr(),
                file.len(),
                runoff.as_ptr(),
                runoff.len(),
                board.as_mut_ptr(),
                board.len(),
                report.as_mut_ptr(),
                report.len(),
            )
        }
    }

    pub fn stock(file: &[u8], board: &[u64]) -> Sums {
        unsafe { c::river_stock(file.as_ptr(), file.len(), board.as_ptr(), board.len()) }
    }
}

/// The place of an accepted call.
fn accepted(answer: river::Answer) -> Result<u64, String> {
    match answer.number {
        0 => Ok(answer.place),
        number => Err(format!("refused {number} {}", answer.place)),
    }
}

fn main() -> Result<(), Box<dyn Error>> {
    let mut words = env::args().skip(1);
    let path = words.next().ok_or("a basin and its runoff are wanted")?;
    let file = fs::read(&path).map_err(|error| format!("{path}: {error}"))?;
    let runoff = words.map(|word| word.parse()).collect::<Result<Vec<u32>, _>>()?;

    let mut board = [0; river::BOARD_LENGTH];
    let mut report = [0; river::REPORT_LONGEST];
    accepted(river::fresh(&file, &mut board))?;
    let short = accepted(river::month(&file, &runoff, &mut board, &mut report))?;
    println!("{short} rights short, next month {}", board[0]);
    let (stations, reservoirs) = (file[4] as usize, file[12] as usize);
    let rights = u16::from_le_bytes([file[28], file[29]]) as usize;
    for (place, four) in report.chunks(4).take(rights).enumerate() {
        println!("right {place}: river, storage, reason, station {four:?}");
    }
    let deep_loss = report[4 * rights + 2 * stations + reservoirs];
    let sums = river::stock(&file, &board);
    println!("stored {}, due {}, deep loss {deep_loss}", sums.storage, sums.due);
    Ok(())
}
