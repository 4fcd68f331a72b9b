//! Books that break their layout: refusal 9, whatever year is asked for (02, No. 4).

use super::contents::put;
use crate::engine::book::{encode, WaterYear};
use crate::engine::records::u32_at;
use crate::generate::Rng;

type Books = Vec<(String, Vec<u8>)>;

/// Damages of a book that fits a basin of so many stations; every one is to be answered
/// 9, 0.
pub fn broken_books(years: &[WaterYear], stations: usize) -> Books {
    let book = encode(years);
    let mut all = Books::new();
    for length in (0..4).chain([4, 8, 11, 4 + 8 * years.len(), book.len() - 1]) {
        if length < book.len() {
            all.push((format!("cut to {length} bytes"), book[..length].to_vec()));
        }
    }
    for more in [1, 3, 4, 8, 48 * stations] {
        all.push((format!("{more} bytes longer"), [&book[..], &vec![0; more]].concat()));
    }
    wrong_counts(&book, &mut all);
    years_too_many(years, &mut all);
    other_widths(years, stations, &mut all);
    for place in 0..years.len() {
        wrong_years(years, place, &mut all);
        wrong_offsets(&book, place, stations, &mut all);
        all.push((format!("gap before body {place}"), with_gap(&book, place)));
    }
    for place in 1..years.len() {
        bodies_out_of_order(&book, place, stations, &mut all);
    }
    all
}

/// The number of years alone, as if more or fewer bodies were there.
fn wrong_counts(book: &[u8], all: &mut Books) {
    let count = u32_at(book, 0);
    let wrong = [
        ("one less", count.wrapping_sub(1)),
        ("one more", count + 1),
        ("21", 21),
        ("256 more", count + 256),
        ("65536 more", count + 65536),
        // Contents, and contents with bodies, of the same length modulo 2^32.
        ("2^29 more", count + (1 << 29)),
        ("2^30 more", count + (1 << 30)),
        ("2^31 more", count + (1 << 31)),
        // Contents that end before they begin, modulo 2^32.
        ("2^29 - 1", (1 << 29) - 1),
        ("2^32 - 1", u32::MAX),
    ];
    for (what, number) in wrong {
        let mut book = book.to_vec();
        put(&mut book, 0, number);
        all.push((format!("number of years {what}"), book));
    }
}

/// 21 years, packed as if they were allowed.
fn years_too_many(years: &[WaterYear], all: &mut Books) {
    let Some(first) = years.first() else { return };
    let year = |number: u32| WaterYear { year: 1800 + number, runoff: first.runoff.clone() };
    all.push(("21 years".into(), encode(&(0..21).map(year).collect::<Vec<_>>())));
}

/// Bodies of a basin with a station more or less, packed as that basin's have to be.
fn other_widths(years: &[WaterYear], stations: usize, all: &mut Books) {
    let widths = [("one station less", stations - 1), ("one station more", stations + 1)];
    for (what, width) in widths {
        let mut other = years.to_vec();
        other.iter_mut().for_each(|year| year.runoff.resize(12 * width, 0));
        if !other.is_empty() {
            all.push((format!("bodies of {what}"), encode(&other)));
        }
    }
}

/// A year out of range, or not after the one before.
fn wrong_years(years: &[WaterYear], place: usize, all: &mut Books) {
    let mut add = |what: &str, year: u32| {
        let mut other = years.to_vec();
        other[place].year = year;
        all.push((format!("year at {place} {what}"), encode(&other)));
    };
    for (what, year) in [("0", 0), ("1799", 1799), ("2201", 2201), ("2^32 - 1", u32::MAX)] {
        add(what, year);
    }
    add("2^16 more", years[place].year + (1 << 16));
    if place > 0 {
        add("equal to the one before", years[place - 1].year);
        if years[place - 1].year > 1800 {
            add("one below the one before", years[place - 1].year - 1);
        }
    }
}

fn wrong_offsets(book: &[u8], place: usize, stations: usize, all: &mut Books) {
    let at = 8 + 8 * place;
    let offset = u32_at(book, at);
    let body = 48 * stations as u32;
    let wrong = [
        ("one less", offset - 1),
        ("one more", offset + 1),
        ("0", 0),
        ("a number further", offset + 4),
        ("a body further", offset + body),
        // The first body's then lies below 0, just under 2^32.
        ("a body back", offset.wrapping_sub(body)),
        ("2^16 more", offset + (1 << 16)),
        ("2^31 more", offset + (1 << 31)),
        ("2^32 - 4", u32::MAX - 3),
        ("2^32 - 1", u32::MAX),
    ];
    for (what, number) in wrong {
        let mut book = book.to_vec();
        put(&mut book, at, number);
        all.push((format!("offset at {place} {what}"), book));
    }
}

/// A zero byte before a body, this and the later offsets moved along.
fn with_gap(book: &[u8], place: usize) -> Vec<u8> {
    let mut book = book.to_vec();
    let years = u32_at(&book, 0) as usize;
    book.insert(u32_at(&book, 8 + 8 * place) as usize, 0);
    for later in place..years {
        let offset = u32_at(&book, 8 + 8 * later);
        put(&mut book, 8 + 8 * later, offset + 1);
    }
    book
}

/// Two offsets exchanged, and the two bodies with them, so that each offset tells where
/// the body is.
fn bodies_out_of_order(book: &[u8], place: usize, stations: usize, all: &mut Books) {
    let (one, other) = (8 * place, 8 + 8 * place);
    let (before, after) = (u32_at(book, one), u32_at(book, other));
    let mut swapped = book.to_vec();
    put(&mut swapped, one, after);
    put(&mut swapped, other, before);
    all.push((format!("offsets at {place} and before it swapped"), swapped.clone()));
    let start = before as usize;
    swapped[start..start + 96 * stations].rotate_left(48 * stations);
    all.push((format!("bodies at {place} and before it swapped"), swapped));
}

/// Flips, cuts and extensions without a claim about the answer, mostly in the contents.
pub fn random_book_damage(rng: &mut Rng, book: &[u8]) -> Vec<u8> {
    let mut book = book.to_vec();
    for _ in 0..rng.below(2) + 1 {
        if book.is_empty() {
            book.push(rng.word() as u8);
        }
        let contents = book.len().min(4 + 8 * book[0] as usize);
        let near = if rng.chance(80) { contents } else { book.len() };
        let at = rng.below(near);
        match rng.below(12) {
            0 => book.truncate(at),
            1 => book.insert(at, 0),
            2 => book.extend(vec![0; rng.below(60)]),
            3 => _ = book.remove(at),
            4..=6 => book[at] = book[at].wrapping_add(1),
            7..=9 => book[at] = book[at].wrapping_sub(1),
            _ => book[at] ^= 1 << rng.below(8),
        }
    }
    book
}
