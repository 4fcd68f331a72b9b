//! Runoff books: every damage is refused, every legal one is not, and a year that is
//! listed is found at its body (02, No. 4).

use river_tests::calls::{by_each, Calls};
use river_tests::damage::*;
use river_tests::engine::board::BOARD;
use river_tests::engine::book::{encode, WaterYear};
use river_tests::engine::tally::Tally;
use river_tests::engine::{year_body, Answer};
use river_tests::examples::months_bytes;
use river_tests::generate::{any_listed, any_river, river_of, Rng, Size};
use std::collections::BTreeSet;

/// What the look-up and a run on these bytes answer, which has to be the same refusal; the
/// run's lists stay as they are.
fn refused(calls: &Calls, file: &[u8], book: &[u8], year: u32) -> Answer {
    let (mut board, mut reports) = (vec![3; BOARD], vec![4; 50]);
    let answer = (calls.find_year)(file, book, year);
    assert_eq!((calls.run_year)(file, book, year, &mut board, &mut reports), answer);
    assert!(board.iter().all(|&n| n == 3) && reports.iter().all(|&n| n == 4));
    assert!(year_body(file, book, year).is_empty());
    answer
}

#[test]
fn each_broken_book_is_refused() {
    by_each(|calls| {
        let (mut names, mut times) = (BTreeSet::new(), 0);
        for seed in 0..60 {
            let rng = &mut Rng::new(seed);
            let river = any_river(rng);
            let years = river.any_book(rng);
            for (name, book) in broken_books(&years, river.basin.stations.len()) {
                // A year that the sound book lists, and one that none does.
                for year in any_listed(rng, &years).into_iter().chain([1799]) {
                    let answer = refused(calls, &river.file, &book, year);
                    assert_eq!(answer, (9, 0), "{name}, seed {seed}, year {year}");
                }
                names.insert(name);
                times += 1;
            }
        }
        println!("{} damages of a book, {times} books", names.len());
        assert!(times > 5000);
    });
}

/// Damage at random, against the tally, which reads a book by itself: of a year that it
/// finds there is only the list to complain of.
#[test]
fn random_damage_is_answered_as_the_tally_does() {
    by_each(|calls| {
        let mut numbers = [0; 11];
        for seed in 0..200 {
            let rng = &mut Rng::new(seed);
            let river = river_of(rng, Size::Small);
            let years = river.book(rng, seed as usize % 5 + 1);
            let mut tally = Tally::new(&river.file);
            for _ in 0..100 {
                let book = random_book_damage(rng, &encode(&years));
                let year = any_listed(rng, &years).unwrap();
                let told = tally.run_year(&book, year, 0);
                let found = (calls.find_year)(&river.file, &book, year);
                assert_eq!(found, if told == (6, 0) { (0, 0) } else { told }, "seed {seed}");
                numbers[found.0 as usize] += 1;
            }
        }
        let [found, broken, unlisted] = [0, 9, 10].map(|number: usize| numbers[number]);
        println!(
            "20000 books damaged at random: {found} found, {broken} broken, {unlisted} unlisted"
        );
        assert!(found > 500 && broken > 5000 && unlisted > 100);
    });
}

/// Bytes of no year, one by one: a number of years that is 0, and nothing else.
#[test]
fn a_book_of_no_year_has_four_bytes() {
    by_each(|calls| {
        let file = river_of(&mut Rng::new(1), Size::Small).file;
        let answers = [(0, 9), (1, 9), (2, 9), (3, 9), (4, 10), (5, 9), (8, 9), (12, 9)];
        for (length, number) in answers {
            assert_eq!(refused(calls, &file, &vec![0; length], 1964), (number, 0), "{length}");
        }
    });
}

/// The file of a basin with one station, or two, and nothing else.
fn bare(stations: &[u32]) -> Vec<u8> {
    let end = 32 + 8 * stations.len() as u32;
    let contents = [32, stations.len() as u32, end, 0, end, 0, end, 0];
    let records = stations.iter().flat_map(|&number| [number, 1]).collect::<Vec<_>>();
    months_bytes(&[&contents[..], &records].concat())
}

/// Twelve numbers.
fn body(first: u32) -> Vec<u32> {
    (first..first + 12).collect()
}

/// A book written out number by number.
fn written(contents: &[u32], bodies: &[Vec<u32>]) -> Vec<u8> {
    months_bytes(&[contents, &bodies.concat()].concat())
}

#[test]
fn books_written_by_hand() {
    by_each(|calls| {
        let file = bare(&[7]);
        let one = written(&[1, 1964, 12], &[body(100)]);
        let two = written(&[2, 1800, 20, 2200, 68], &[body(100), body(200)]);
        assert_eq!((calls.find_year)(&file, &one, 1964), (0, 0));
        assert_eq!((calls.find_year)(&file, &two, 1800), (0, 0));
        assert_eq!((calls.find_year)(&file, &two, 2200), (0, 0));
        assert_eq!(year_body(&file, &one, 1964), months_bytes(&body(100)));
        assert_eq!(year_body(&file, &two, 1800), months_bytes(&body(100)));
        assert_eq!(year_body(&file, &two, 2200), months_bytes(&body(200)));
        assert_eq!(refused(calls, &file, &one, 1963), (10, 0));
        assert_eq!(refused(calls, &file, &two, 1964), (10, 0));
        // In each of these contents one or two numbers are wrong.
        for contents in [
            [2, 1799, 20, 2200, 68],
            [2, 1800, 20, 2201, 68],
            [2, 1964, 20, 1964, 68],
            [2, 1965, 20, 1964, 68],
            [2, 1964, 20, 1965, 20],
            [2, 1964, 20, 1965, 72],
            [2, 1964, 68, 1965, 20],
            [2, 1964, 4, 1965, 52],
            [1, 1964, 12, 1965, 60],
            [3, 1964, 28, 1965, 76],
        ] {
            let book = written(&contents, &[body(100), body(200)]);
            assert_eq!(refused(calls, &file, &book, 1964), (9, 0), "{contents:?}");
        }
    });
}

/// A basin of two stations asks for bodies twice as long.
#[test]
fn a_book_is_for_its_basin() {
    by_each(|calls| {
        let two = written(&[2, 1964, 20, 1965, 68], &[body(100), body(200)]);
        let one = written(&[1, 1964, 12], &[body(100), body(200)]);
        assert_eq!((calls.find_year)(&bare(&[7]), &two, 1964), (0, 0));
        assert_eq!(refused(calls, &bare(&[7, 8]), &two, 1964), (9, 0));
        assert_eq!((calls.find_year)(&bare(&[7, 8]), &one, 1964), (0, 0));
        assert_eq!(refused(calls, &bare(&[7]), &one, 1964), (9, 0));
    });
}

/// Every year of a book has its own sheets, which lie in the book itself.
#[test]
fn each_year_is_found_at_its_body() {
    by_each(|calls| {
        let mut found = 0;
        for seed in 0..100 {
            let rng = &mut Rng::new(seed);
            let river = any_river(rng);
            let years = river.book(rng, seed as usize % 21);
            let book = encode(&years);
            for WaterYear { year, runoff } in &years {
                assert_eq!((calls.find_year)(&river.file, &book, *year), (0, 0), "seed {seed}");
                let body = year_body(&river.file, &book, *year);
                assert_eq!(body, months_bytes(runoff), "seed {seed}, year {year}");
                assert!(book.as_ptr_range().contains(&body.as_ptr()), "a part of the book");
                found += 1;
            }
            let listed: BTreeSet<u32> = years.iter().map(|year| year.year).collect();
            let beside = listed.iter().flat_map(|year| [year - 1, year + 1, year + (1 << 16)]);
            for year in beside.chain([0, 1799, 1800, 2200, 2201, 1 << 31, u32::MAX]) {
                if !listed.contains(&year) {
                    assert_eq!(refused(calls, &river.file, &book, year), (10, 0), "{year}");
                }
            }
        }
        println!("{found} years found");
        assert!(found > 900);
    });
}

/// A refused file comes before everything that is wrong with a book or a year.
#[test]
fn the_file_comes_first() {
    by_each(|calls| {
        let rng = &mut Rng::new(3);
        let sound = river_of(rng, Size::Small);
        let book = encode(&sound.book(rng, 2));
        for &(name, number, edit) in BROKEN.iter() {
            let mut basin = rich_base();
            let place = edit(&mut basin, rng).unwrap() as u64;
            for book in [&book[..], &[], &[0; 4]] {
                assert_eq!(refused(calls, &basin.encode(), book, 1), (number, place), "{name}");
            }
        }
        for (name, file) in not_packed(&rich_base()) {
            assert_eq!(refused(calls, &file, &book, 1), (1, 0), "{name}");
        }
    });
}
