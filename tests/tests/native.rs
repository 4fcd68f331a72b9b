//! The static library against the plain engine, over valid files, every
//! damage and random damage: number and place of the check; answer and every
//! number of the board for fresh; all four numbers of stock and all three of short
//! months. Where the rules give the answer of a damage, it is asked of the library
//! too. Feature `native`.

use river_tests::asked::Asked;
use river_tests::damage::*;
use river_tests::engine::board::{BOARD, SHORT};
use river_tests::engine::records::MOST_RIGHTS;
use river_tests::engine::{check, fresh, stock, Answer};
use river_tests::ffi;
use river_tests::generate::{any_river, largest, Rng};
use river_tests::lent::Lent;

/// Files compared, by refusal number.
#[derive(Default)]
struct Compared([usize; 6]);

impl Compared {
    fn compare(&mut self, file: &[u8], what: &str) -> Answer {
        let answer = ffi::verdict(file);
        assert_eq!(answer, check(file), "{what}");
        assert_eq!(ffi::check(file) as u64, answer.0, "{what}");
        self.0[answer.0 as usize] += 1;
        answer
    }

    /// native.sh adds up the counts of these lines.
    fn print(&self, what: &str) {
        println!("{} files: {what}, by number 0 to 5 {:?}", self.0.iter().sum::<usize>(), self.0);
    }
}

#[test]
fn valid_files() {
    let mut compared = Compared::default();
    compared.compare(&largest().encode(), "the largest file");
    for seed in 0..2000 {
        compared.compare(&any_river(&mut Rng::new(seed)).file, &format!("seed {seed}"));
    }
    compared.print("valid");
    assert_eq!(compared.0, [2001, 0, 0, 0, 0, 0]);
}

#[test]
fn every_damage_and_every_extreme_value() {
    let rng = &mut Rng::new(21);
    let mut compared = Compared::default();
    let random = (0..100).map(|seed| any_river(&mut Rng::new(seed)).basin);
    for base in std::iter::once(rich_base()).chain(random) {
        for &(name, number, edit) in BROKEN.iter() {
            let mut basin = base.clone();
            if let Some(place) = edit(&mut basin, rng) {
                let answer = compared.compare(&basin.encode(), name);
                assert_eq!(answer, (number, place as u64), "{name}");
            }
        }
        for &(name, edit) in LEGAL {
            let mut basin = base.clone();
            if edit(&mut basin, rng).is_some() {
                assert_eq!(compared.compare(&basin.encode(), name), (0, 0), "{name}");
            }
        }
        for (name, file) in not_packed(&base) {
            assert_eq!(compared.compare(&file, &name), (1, 0), "{name}");
        }
    }
    compared.print("every damage and every legal value at its limit");
    assert!(compared.0.iter().all(|&times| times > 100), "{:?}", compared.0);
}

#[test]
fn pairs_of_damages() {
    let rng = &mut Rng::new(22);
    let mut compared = Compared::default();
    for &(name, _, edit) in BROKEN.iter() {
        for &(other, _, also) in BROKEN.iter() {
            let mut basin = rich_base();
            also(&mut basin, rng);
            edit(&mut basin, rng);
            compared.compare(&basin.encode(), &format!("{name}, after {other}"));
        }
    }
    compared.print("pairs of damages");
    assert!(compared.0[2..].iter().all(|&times| times > 100), "{:?}", compared.0);
}

#[test]
fn random_damages() {
    let rng = &mut Rng::new(23);
    let mut compared = Compared::default();
    for seed in 0..600 {
        let river = any_river(&mut Rng::new(seed));
        for time in 0..40 {
            let file = random_damage(rng, &river.file);
            compared.compare(&file, &format!("seed {seed}, damage {time}"));
        }
    }
    compared.print("damaged at random");
    assert!(compared.0.iter().all(|&times| times > 200), "{:?}", compared.0);
    assert!(compared.0[1..].iter().sum::<usize>() >= 5000);
}

/// Fresh and stock on a file and a board, by both engines; answers stock's number.
fn compare_board(file: &[u8], board: &[u64], what: &str) -> usize {
    let told = ffi::stock(file, board);
    assert_eq!(told, stock(file, board), "stock, {what}");
    let (mut plain, mut native) = (board.to_vec(), Lent::of(board));
    let answer = fresh(file, &mut plain);
    assert_eq!(ffi::fresh(file, native.list()), answer, "fresh, {what}");
    native.assert_is(&plain, "fresh board", &what);
    told[0] as usize
}

#[test]
fn boards_possible_and_impossible() {
    let rng = &mut Rng::new(24);
    let mut by_number = [0; 8];
    // Where the rules give the number it is given here too.
    let mut compare = |file: &[u8], board: &[u64], what: &str, wanted: Option<usize>| {
        let number = compare_board(file, board, what);
        assert!(wanted.is_none_or(|wanted| number == wanted), "{what}: {number}");
        by_number[number] += 1;
    };
    for seed in 0..300 {
        let river = any_river(&mut Rng::new(seed));
        let board = river.possible_board(rng);
        compare(&river.file, &board, "possible", Some(0));
        for &(name, edit) in POSSIBLE {
            let mut board = board.clone();
            edit(&river.basin, &mut board);
            compare(&river.file, &board, name, Some(0));
        }
        for &(name, edit) in IMPOSSIBLE {
            let mut board = board.clone();
            if impossible_board(edit, &river.basin, &mut board, rng).is_some() {
                compare(&river.file, &board, name, Some(7));
            }
        }
        for length in [0, 1, SHORT, BOARD - 1, BOARD + 1] {
            compare(&river.file, &vec![5; length], "length", Some(6));
        }
        compare(&random_damage(rng, &river.file), &board, "damaged", None);
    }
    let boards: usize = by_number.iter().sum();
    println!("{boards} boards: fresh and stock, by number 0 to 7 {by_number:?}");
    assert!([0, 6, 7].iter().all(|&number: &usize| by_number[number] > 500), "{by_number:?}");
}

/// Every right of a possible board, and numbers that none has.
#[test]
fn short_months_of_every_right() {
    let rng = &mut Rng::new(25);
    let mut asked = Asked::default();
    for seed in 0..300 {
        let river = any_river(&mut Rng::new(seed));
        let board = river.possible_board(rng);
        let rights = river.basin.rights.len();
        for right in 0..rights {
            let told = asked.compare(&river.file, &board, right, &format!("seed {seed}"));
            assert_eq!(told[..2], [0, 0], "seed {seed}");
        }
        for right in (rights..rights + 3).chain([MOST_RIGHTS, 1 << 16, 1 << 32, usize::MAX]) {
            let told = asked.compare(&river.file, &board, right, &format!("seed {seed}"));
            assert_eq!(told, [0, 0, 0], "seed {seed}");
        }
    }
    asked.print("every right");
    assert!(asked.months.iter().all(|&times| times > 5), "{asked:?}");
}

/// One that is there, if there is one, and one that is not.
fn two_rights(rights: usize, rng: &mut Rng) -> [usize; 2] {
    [rng.below(rights.max(1)), *rng.pick(&[rights, MOST_RIGHTS, usize::MAX])]
}

#[test]
fn short_months_on_boards_possible_and_impossible() {
    let rng = &mut Rng::new(26);
    let mut asked = Asked::default();
    for seed in 0..300 {
        let river = any_river(&mut Rng::new(seed));
        let rights = two_rights(river.basin.rights.len(), rng);
        let board = river.possible_board(rng);
        let mut ask = |board: &[u64], what: &str, wanted: u64| {
            for right in rights {
                let told = asked.compare(&river.file, board, right, &what);
                assert_eq!(told[..2], [wanted, 0], "{what}");
                assert!(wanted == 0 || told[2] == 0, "{what}");
            }
        };
        for &(name, edit) in POSSIBLE {
            let mut board = board.clone();
            edit(&river.basin, &mut board);
            ask(&board, name, 0);
        }
        for &(name, edit) in IMPOSSIBLE {
            let mut board = board.clone();
            if impossible_board(edit, &river.basin, &mut board, rng).is_some() {
                ask(&board, name, 7);
            }
        }
        for length in [0, 1, SHORT, BOARD - 1, BOARD + 1] {
            ask(&vec![5; length], "length", 6);
        }
    }
    asked.print("on boards possible and impossible");
    assert!([0, 6, 7].iter().all(|&number: &usize| asked.numbers[number] > 500), "{asked:?}");
}

#[test]
fn short_months_of_damaged_files() {
    let rng = &mut Rng::new(27);
    let mut asked = Asked::default();
    for &(name, number, edit) in BROKEN.iter() {
        let mut basin = rich_base();
        let place = edit(&mut basin, rng).unwrap() as u64;
        for right in two_rights(basin.rights.len(), rng) {
            // A board of any length and content: the file comes first.
            let board = vec![u64::MAX; *rng.pick(&[0, BOARD - 1, BOARD])];
            let told = asked.compare(&basin.encode(), &board, right, &name);
            assert_eq!(told, [number, place, 0], "{name}");
        }
    }
    for seed in 0..300 {
        let river = any_river(&mut Rng::new(seed));
        let (file, board) = (random_damage(rng, &river.file), river.possible_board(rng));
        for right in two_rights(river.basin.rights.len(), rng) {
            asked.compare(&file, &board, right, &format!("seed {seed}"));
        }
    }
    asked.print("of damaged files");
    assert!(asked.numbers[..=5].iter().all(|&times| times > 10), "{asked:?}");
}
