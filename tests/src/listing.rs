//! What program `riverrun` does: it reads `months.bin` as it comes and prints a
//! listing (01, One October, whole); and what `riveryear` does, in [`years`]. Of a file
//! that is not there the caller hands no bytes.

use crate::engine::board::{fresh, BOARD, DUES, MARKS, SHORT, STORAGES};
use crate::engine::check::{judge, Judged};
use crate::engine::month::month_on;
use crate::engine::network::Network;
use crate::engine::records::u32_at;
use crate::engine::report;
use crate::engine::slip::Faithful;
use crate::engine::Answer;
use std::io::{self, Read, Write};

mod years;
pub use years::{listing_of_years, run_years};

const HEADER: &[u8] = b"MONTH PERMIT RIVER STORE WHY AT\n";

/// The whole listing, from the bytes of both files.
pub fn listing(basin: &[u8], months: &[u8]) -> String {
    let mut text = Vec::new();
    run(basin, months, &mut text).expect("neither bytes nor a list of them can fail");
    String::from_utf8(text).unwrap()
}

/// Prints the listing, a month at a time: however many months there are, only one
/// is held. The file is judged once.
pub fn run(basin: &[u8], mut months: impl Read, mut out: impl Write) -> io::Result<()> {
    // Also before a refusal.
    out.write_all(HEADER)?;
    let mut network = Network::room();
    let judged = match judge(&Faithful, basin, &mut network) {
        Ok(judged) => judged,
        Err(refusal) => return refuse(out, refusal.answer()),
    };
    let mut run = Run::begin(basin, &judged);
    let mut part = vec![0; 4 * judged.sections.stations.len()];
    let mut text = Vec::new();
    for number in 0.. {
        let length = fill(&mut months, &mut part)?;
        if length == 0 {
            break;
        }
        // The month call would turn down a part of a sheet with the same number, but
        // part of a number cannot be handed to it.
        let answer = if length < part.len() { (6, 0) } else { run.month(&part) };
        if answer.0 != 0 {
            return refuse(out, answer);
        }
        text.clear();
        run.print(number, &mut text);
        out.write_all(&text)?;
    }
    Ok(())
}

/// The last line of a listing that is refused.
fn refuse(mut out: impl Write, (number, place): Answer) -> io::Result<()> {
    writeln!(out, "refused {number} {place}")
}

/// Reads until the part is full or nothing is left; tells how much was read.
fn fill(months: &mut impl Read, part: &mut [u8]) -> io::Result<usize> {
    let mut length = 0;
    while length < part.len() {
        match months.read(&mut part[length..]) {
            Ok(0) => break,
            Ok(more) => length += more,
            Err(error) if error.kind() == io::ErrorKind::Interrupted => (),
            Err(error) => return Err(error),
        }
    }
    Ok(length)
}

struct Run<'a> {
    basin: &'a Judged<'a>,
    runoff: Vec<u32>,
    board: Vec<u64>,
    report: Vec<u64>,
}

impl<'a> Run<'a> {
    fn begin(file: &[u8], basin: &'a Judged) -> Run<'a> {
        let mut board = vec![0; BOARD];
        fresh(&Faithful, file, &mut board);
        Run {
            basin,
            runoff: vec![0; basin.sections.stations.len()],
            board,
            report: vec![0; basin.sections.report_length()],
        }
    }

    fn month(&mut self, part: &[u8]) -> Answer {
        for (runoff, number) in self.runoff.iter_mut().zip(part.as_chunks::<4>().0) {
            *runoff = u32::from_le_bytes(*number);
        }
        let Run { basin, runoff, board, report } = self;
        month_on(&Faithful, basin, runoff, board, report)
    }

    fn print(&self, number: u64, text: &mut Vec<u8>) {
        let sections = &self.basin.sections;
        let (rights, rows) = (sections.rights.len(), sections.stations.len());
        // A line to a right: the month, who it is, and what the report tells of it.
        let lines = self.report[..report::flow(rights, 0)].as_chunks::<4>().0;
        for (right, four) in sections.rights.iter().zip(lines) {
            push_number(text, number, b' ');
            push_number(text, u32_at(right, 0) as u64, b' ');
            push_line(text, *four);
        }
        // A line to the month: what leaves at the last row, and over the whole basin what
        // evaporated, is stored and is on its way.
        let outflow = self.report[report::flow(rights, rows - 1)];
        let reservoirs = sections.reservoirs.len();
        let evaporations =
            report::evaporation(rights, rows, 0)..report::evaporation(rights, rows, reservoirs);
        let evaporation = self.report[evaporations].iter().sum();
        let storage = self.board[STORAGES..MARKS].iter().sum();
        let pending = self.board[DUES..SHORT].iter().sum();
        push_number(text, number, b' ');
        text.extend_from_slice(b"end ");
        push_line(text, [outflow, evaporation, storage, pending]);
    }
}

fn push_line(text: &mut Vec<u8>, [one, two, three, four]: [u64; 4]) {
    push_number(text, one, b' ');
    push_number(text, two, b' ');
    push_number(text, three, b' ');
    push_number(text, four, b'\n');
}

/// A number and what follows it. With the standard formatting a whole run took
/// nearly twice the instructions.
fn push_number(text: &mut Vec<u8>, mut number: u64, end: u8) {
    let mut digits = [end; 21];
    let mut first = 20;
    loop {
        first -= 1;
        digits[first] = b'0' + (number % 10) as u8;
        number /= 10;
        if number == 0 {
            break;
        }
    }
    text.extend_from_slice(&digits[first..]);
}
