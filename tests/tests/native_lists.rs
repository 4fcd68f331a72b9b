//! Lists as a caller may lend them to the static library: empty ones whose pointer leads
//! nowhere, a file, a book, a store and a name at any address, numbers with all their 64 bits.
//! Feature `native`.

use river_tests::engine::board::{BOARD, SHORT};
use river_tests::engine::book::encode;
use river_tests::engine::report::LONGEST;
use river_tests::engine::{drop_name, fresh, month, recall, run_year, save, short_months, stock};
use river_tests::ffi;
use river_tests::generate::{any_numbers, any_river, any_store, river_of, Rng, Size, NAMES};
use river_tests::lent::Lent;
use std::ptr::NonNull;

/// No numbers, at an address that is aligned and not to be read.
fn nowhere<N>() -> &'static [N] {
    unsafe { std::slice::from_raw_parts(NonNull::dangling().as_ptr(), 0) }
}

fn nowhere_to_write<N>() -> &'static mut [N] {
    unsafe { std::slice::from_raw_parts_mut(NonNull::dangling().as_ptr(), 0) }
}

/// Any of the four lists left out, alone and together. The file's refusal comes first.
#[test]
fn empty_lists_lead_nowhere() {
    for seed in 0..40 {
        let rng = &mut Rng::new(seed);
        let river = any_river(rng);
        let (runoff, board) = (river.runoff(rng), river.possible_board(rng));
        let report = vec![9; river.basin.report_length()];
        for left_out in 1..16 {
            let [no_file, no_runoff, no_board, no_report] =
                [0, 1, 2, 3].map(|list| left_out >> list & 1 == 1);
            let at = format!("seed {seed}, left out {left_out:04b}");
            let file = if no_file { nowhere() } else { &river.file };
            let on_file = (no_file as u64, 0);
            assert_eq!(ffi::check(file) as u64, on_file.0, "{at}");
            assert_eq!(ffi::verdict(file), on_file, "{at}");

            let (mut lent_board, mut lent_report) = (Lent::of(&board), Lent::of(&report));
            let answer = ffi::month(
                file,
                if no_runoff { nowhere() } else { &runoff },
                if no_board { nowhere_to_write() } else { lent_board.list() },
                if no_report { nowhere_to_write() } else { lent_report.list() },
            );
            assert_eq!(answer, if no_file { (1, 0) } else { (6, 0) }, "{at}");
            lent_board.assert_is(&board, "board", &at);
            lent_report.assert_is(&report, "report", &at);

            if no_file || no_board {
                let number = if no_file { 1 } else { 6 };
                let list = if no_board { nowhere_to_write() } else { lent_board.list() };
                assert_eq!(ffi::stock(file, list), [number, 0, 0, 0], "{at}");
                for right in [0, usize::MAX] {
                    assert_eq!(ffi::short_months(file, list, right), [number, 0, 0], "{at}");
                }
                assert_eq!(ffi::fresh(file, list), (number, 0), "{at}");
                lent_board.assert_is(&board, "board of fresh", &at);
            }
        }
    }
}

/// The same of a year: file, book, board and list. The file's refusal comes first, then the
/// book's.
#[test]
fn empty_lists_of_a_year_lead_nowhere() {
    for seed in 0..40 {
        let rng = &mut Rng::new(seed);
        let river = any_river(rng);
        let (years, board) = (river.book(rng, 1), river.possible_board(rng));
        let (book, year) = (encode(&years), years[0].year);
        let reports = vec![9; 12 * river.basin.report_length()];
        for left_out in 1..16 {
            let [no_file, no_book, no_board, no_reports] =
                [0, 1, 2, 3].map(|list| left_out >> list & 1 == 1);
            let at = format!("seed {seed}, left out {left_out:04b}");
            let file = if no_file { nowhere() } else { &river.file };
            let book = if no_book { nowhere() } else { &book };
            let found = match (no_file, no_book) {
                (true, _) => (1, 0),
                (false, true) => (9, 0),
                (false, false) => (0, 0),
            };
            assert_eq!(ffi::find_year(file, book, year), found, "{at}");
            let (mut lent_board, mut lent_reports) = (Lent::of(&board), Lent::of(&reports));
            let answer = ffi::run_year(
                file,
                book,
                year,
                if no_board { nowhere_to_write() } else { lent_board.list() },
                if no_reports { nowhere_to_write() } else { lent_reports.list() },
            );
            assert_eq!(answer, if found.0 == 0 { (6, 0) } else { found }, "{at}");
            lent_board.assert_is(&board, "board", &at);
            lent_reports.assert_is(&reports, "list", &at);
        }
    }
}

/// The same of a store, a name and a board. Nothing is saved, recalled or dropped.
#[test]
fn empty_lists_of_a_store_lead_nowhere() {
    let rng = &mut Rng::new(1);
    let (store, board) = (any_store(rng), any_numbers(rng));
    for left_out in 1..8 {
        let [no_store, no_name, no_board] = [0, 1, 2].map(|list| left_out >> list & 1 == 1);
        let at = format!("left out {left_out:03b}");
        let (mut lent_store, mut lent_board) = (Lent::of(&store), Lent::of(&board));
        for name in NAMES {
            let name = if no_name { nowhere() } else { &name };
            let bytes = if no_store { nowhere_to_write() } else { lent_store.list() };
            let numbers = if no_board { nowhere_to_write() } else { lent_board.list() };
            assert_eq!(ffi::save(bytes, name, numbers), (6, 0), "{at}");
            assert_eq!(ffi::recall(bytes, name, numbers), (6, 0), "{at}");
            if no_store || no_name {
                assert_eq!(ffi::drop_name(bytes, name), (6, 0), "{at}");
            }
        }
        lent_store.assert_is(&store, "store", &at);
        lent_board.assert_is(&board, "board", &at);
    }
}

/// A store and a name are bytes, each at any address.
#[test]
fn a_store_and_a_name_lie_at_any_address() {
    let moved = |shift: usize, bytes: &[u8]| [&vec![0xff; shift], bytes, &[0xff; 9]].concat();
    let rng = &mut Rng::new(2);
    let (mut store, board) = (any_store(rng), any_numbers(rng));
    for (entry, name) in NAMES[..4].iter().enumerate() {
        store[8 * entry..8 * entry + 8].copy_from_slice(name);
    }
    for (shift, name_shift) in (0..9).flat_map(|one| (0..9).map(move |other| (one, other))) {
        let at = format!("moved by {shift} and {name_shift}");
        for name in &NAMES[..4] {
            let (mut saved, mut recalled) = (store.clone(), vec![9; BOARD]);
            assert_eq!(recall(&saved, name, &mut recalled), (0, 0));
            assert_eq!(save(&mut saved, name, &board), (0, 0));
            let (mut lent, lent_name) = (moved(shift, &store), moved(name_shift, name));
            let (bytes, name) =
                (&mut lent[shift..][..store.len()], &lent_name[name_shift..][..name.len()]);
            let mut lent_board = Lent::of(&[9; BOARD]);
            assert_eq!(ffi::recall(bytes, name, lent_board.list()), (0, 0), "{at}");
            lent_board.assert_is(&recalled, "board", &at);
            assert_eq!(ffi::save(bytes, name, &board), (0, 0), "{at}");
            assert!(lent == moved(shift, &saved), "{at}: another store");
            assert_eq!(ffi::drop_name(&mut lent[shift..][..store.len()], name), (0, 0), "{at}");
            assert_eq!(drop_name(&mut saved, name), (0, 0));
            assert!(lent == moved(shift, &saved), "{at}: another store");
        }
    }
}

/// A book is bytes too, at any address beside the file's.
#[test]
fn a_book_lies_at_any_address() {
    for seed in 0..20 {
        let rng = &mut Rng::new(seed);
        let river = any_river(rng);
        let (years, board) = (river.book(rng, 2), river.possible_board(rng));
        let (book, year) = (encode(&years), years[1].year);
        let reports = vec![9; 12 * river.basin.report_length()];
        let (mut plain_board, mut plain_reports) = (board.clone(), reports.clone());
        let plain = run_year(&river.file, &book, year, &mut plain_board, &mut plain_reports);
        assert_eq!(plain.0, 0);
        for shift in 0..9 {
            let at = format!("seed {seed}, moved by {shift}");
            let moved = [&vec![0xff; shift], &book[..], &[0xff; 9]].concat();
            let book = &moved[shift..][..book.len()];
            assert_eq!(ffi::find_year(&river.file, book, year), (0, 0), "{at}");
            let (mut lent_board, mut lent_reports) = (Lent::of(&board), Lent::of(&reports));
            let (lists, file) = ((lent_board.list(), lent_reports.list()), &river.file);
            assert_eq!(ffi::run_year(file, book, year, lists.0, lists.1), plain, "{at}");
            lent_board.assert_is(&plain_board, "board", &at);
            lent_reports.assert_is(&plain_reports, "list", &at);
        }
    }
}

/// A file is bytes, which lie at odd addresses as well.
#[test]
fn a_file_lies_at_any_address() {
    for seed in 0..40 {
        let rng = &mut Rng::new(seed);
        let river = any_river(rng);
        let (runoff, board) = (river.runoff(rng), river.possible_board(rng));
        let (mut plain_board, mut plain_report) = (board.clone(), vec![9; LONGEST]);
        let plain = month(&river.file, &runoff, &mut plain_board, &mut plain_report);
        assert_eq!(plain.0, 0);
        for shift in 0..9 {
            let at = format!("seed {seed}, moved by {shift}");
            let moved = [&vec![0xff; shift], &river.file[..], &[0xff; 9]].concat();
            let file = &moved[shift..][..river.file.len()];
            assert_eq!(ffi::verdict(file), (0, 0), "{at}");
            let mut fresh_board = [7; BOARD];
            assert_eq!(ffi::fresh(file, &mut fresh_board), (0, 0), "{at}");
            assert_eq!(ffi::stock(file, &fresh_board), stock(&river.file, &fresh_board), "{at}");
            let (mut lent_board, mut report) = (Lent::of(&board), vec![9; LONGEST]);
            let months = short_months(&river.file, &board, shift);
            assert_eq!(ffi::short_months(file, lent_board.list(), shift), months, "{at}");
            assert_eq!(ffi::month(file, &runoff, lent_board.list(), &mut report), plain, "{at}");
            lent_board.assert_is(&plain_board, "board", &at);
        }
    }
}

/// One high bit set, at every place of a board in turn: a number that is cut to its low
/// half would pass for the possible one.
#[test]
fn numbers_keep_all_their_bits() {
    let mut refused = 0;
    for seed in 0..12 {
        let rng = &mut Rng::new(seed);
        let size = [Size::One, Size::Middle, Size::Limit][seed as usize % 3];
        let river = river_of(rng, size);
        let runoff = river.runoff(rng);
        let mut board = vec![0; BOARD];
        assert_eq!(fresh(&river.file, &mut board), (0, 0));
        for place in 0..BOARD {
            for bit in [32, 41, 42, 63] {
                let mut high = board.clone();
                high[place] |= 1 << bit;
                let told = stock(&river.file, &high);
                let at = format!("seed {seed}, bit {bit} at place {place}");
                assert_eq!(ffi::stock(&river.file, &high), told, "{at}");
                let months = ffi::short_months(&river.file, &high, place % 256);
                assert_eq!(months, short_months(&river.file, &high, place % 256), "{at}");
                assert_eq!(months[0], told[0], "{at}");
                let (mut lent, mut report) = (Lent::of(&high), vec![9; LONGEST]);
                let answer = ffi::month(&river.file, &runoff, lent.list(), &mut report);
                assert_eq!(answer.0, told[0], "{at}");
                if told[0] != 0 {
                    assert_eq!(answer, (7, 0), "{at}");
                    lent.assert_is(&high, "board", &at);
                    assert!(report.iter().all(|&number| number == 9), "{at}");
                    refused += 1;
                }
            }
        }
    }
    assert!(refused > 30_000, "{refused}");
}

/// A right's place with one more bit set, from the lowest that goes beyond all rights: were it
/// cut to its low bits, it would pass for one that is there.
#[test]
fn a_rights_place_keeps_all_its_bits() {
    for seed in 0..20 {
        let river = river_of(&mut Rng::new(seed), Size::Limit);
        let mut board = vec![0; BOARD];
        assert_eq!(fresh(&river.file, &mut board), (0, 0));
        board[SHORT..].fill(0xfff);
        for right in 0..256usize {
            assert_eq!(ffi::short_months(&river.file, &board, right), [0, 0, 12]);
        }
        for bit in 8..usize::BITS {
            for right in [0, 7, 255] {
                let far = right | 1 << bit;
                assert_eq!(ffi::short_months(&river.file, &board, far), [0, 0, 0], "right {far}");
            }
        }
    }
}
