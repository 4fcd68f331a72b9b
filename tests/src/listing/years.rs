//! What program `riveryear` does: it lists years of a book, one after another on one board
//! that begins as the fresh one, with the lines of `riverrun` (02, No. 4).

use super::{refuse, Run, HEADER};
use crate::engine::book::{find_body, sheet_bytes, NO_YEAR};
use crate::engine::check::{judge, Judged, Refusal};
use crate::engine::network::Network;
use crate::engine::records::MONTHS;
use crate::engine::slip::Faithful;
use crate::engine::year::judge_run;
use std::io::{self, Write};

/// The whole listing, from the bytes of both files and the words that ask for years.
pub fn listing_of_years(basin: &[u8], book: &[u8], words: &[&str]) -> String {
    let mut text = Vec::new();
    let words = words.iter().map(|word| word.as_bytes().to_vec());
    run_years(basin, || book.to_vec(), words, &mut text).expect("a list of bytes cannot fail");
    String::from_utf8(text).unwrap()
}

/// Prints the listing, a month at a time. The book is asked for where the basin is
/// accepted and a year is wanted.
pub fn run_years(
    basin: &[u8],
    book: impl FnOnce() -> Vec<u8>,
    words: impl Iterator<Item = Vec<u8>>,
    mut out: impl Write,
) -> io::Result<()> {
    out.write_all(HEADER)?;
    let mut network = Network::room();
    let judged = match judge(&Faithful, basin, &mut network) {
        Ok(judged) => judged,
        Err(refusal) => return refuse(out, refusal.answer()),
    };
    let mut words = words.peekable();
    if words.peek().is_none() {
        return Ok(());
    }
    let book = book();
    let mut run = Run::begin(basin, &judged);
    let (mut number, mut text) = (0, Vec::new());
    for word in words {
        let sheets = match sheets_of(&judged, &book, &word, &run.board) {
            Ok(sheets) => sheets,
            Err(refusal) => return refuse(out, refusal.answer()),
        };
        for part in sheets.chunks_exact(sheet_bytes(judged.sections.stations.len())) {
            // The whole year was judged, so that nothing of a refused one is printed.
            assert_eq!(run.month(part).0, 0);
            text.clear();
            run.print(number, &mut text);
            out.write_all(&text)?;
            number += 1;
        }
    }
    Ok(())
}

/// The sheets of the year that a word names. One that names none finds none, in a book
/// that keeps its layout.
fn sheets_of<'a>(
    basin: &Judged,
    book: &'a [u8],
    word: &[u8],
    board: &[u64],
) -> Result<&'a [u8], Refusal> {
    match year_named(word) {
        Some(year) => {
            let reports = MONTHS * basin.sections.report_length();
            judge_run(&Faithful, basin, book, year, board, reports)
        }
        None => {
            find_body(&Faithful, basin.sections.stations.len(), book, 0)?;
            Err(NO_YEAR)
        }
    }
}

/// A decimal number of 32 bits; leading zeros do not matter.
fn year_named(word: &[u8]) -> Option<u32> {
    if word.is_empty() {
        return None;
    }
    word.iter().try_fold(0u32, |number, &byte| {
        let digit = byte.is_ascii_digit().then(|| (byte - b'0') as u32)?;
        number.checked_mul(10)?.checked_add(digit)
    })
}
