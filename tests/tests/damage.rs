//! Every damage has the refusal that the rules give it.

use river_tests::damage::*;
use river_tests::engine::board::{BOARD, NEXT_MONTH};
use river_tests::engine::records::{Basin, MOST_RUNOFF};
use river_tests::engine::{check, fresh, month, short_months, stock};
use river_tests::examples::stations;
use river_tests::generate::{any_river, river_of, Rng, Size};
use std::collections::BTreeSet;

/// The rich basin first, so that every edit finds something; then random ones.
fn bases() -> Vec<Basin> {
    let mut bases = vec![rich_base()];
    bases.extend((0..300).map(|seed| any_river(&mut Rng::new(seed)).basin));
    bases
}

#[test]
fn the_rich_base_is_valid() {
    assert_eq!(check(&rich_base().encode()), (0, 0));
}

#[test]
fn each_broken_rule_is_refused_at_its_place() {
    let rng = &mut Rng::new(1);
    let names: BTreeSet<&str> = BROKEN.iter().map(|broken| broken.0).collect();
    assert_eq!(names.len(), BROKEN.len(), "two damages with one name");
    let mut times = 0;
    for (index, base) in bases().iter().enumerate() {
        for &(name, number, edit) in BROKEN.iter() {
            let mut basin = base.clone();
            let place = edit(&mut basin, rng);
            assert!(place.is_some() || index > 0, "{name} finds nothing in the rich base");
            let Some(place) = place else { continue };
            assert_eq!(check(&basin.encode()), (number, place as u64), "{name}, base {index}");
            times += 1;
        }
    }
    println!("{} rules broken, {times} files", BROKEN.len());
}

#[test]
fn each_extreme_legal_value_is_accepted() {
    let rng = &mut Rng::new(2);
    let mut times = 0;
    for (index, base) in bases().iter().enumerate() {
        for &(name, edit) in LEGAL {
            let mut basin = base.clone();
            let applied = edit(&mut basin, rng).is_some();
            assert!(applied || index > 0, "{name} finds nothing in the rich base");
            if applied {
                assert_eq!(check(&basin.encode()), (0, 0), "{name}, base {index}");
                times += 1;
            }
        }
    }
    println!("{} legal values at their limits, {times} files", LEGAL.len());
}

#[test]
fn each_file_not_packed_is_refused() {
    let mut times = 0;
    for base in bases().iter().take(60) {
        for (name, file) in not_packed(base) {
            assert_eq!(check(&file), (1, 0), "{name}");
            times += 1;
        }
    }
    println!("{times} files not packed");
}

/// Order bytes at random, in and out of range, against the rule told row by row:
/// the first row whose order is out of range, or that finds no row below though
/// it is not the last, or that is the last and not of order 1.
#[test]
fn random_orders_are_refused_at_the_first_row() {
    let rng = &mut Rng::new(10);
    let mut accepted = 0;
    for _ in 0..20_000 {
        let rows = rng.below(9) + 1;
        let orders = *rng.pick(&[&[1, 1, 2][..], &[1, 2, 3], &[0, 1, 2, 8, 9, 255]]);
        let list: Vec<_> = (1..=rows).map(|n| (n as u32, *rng.pick(orders))).collect();
        let basin = Basin { stations: stations(&list), ..Basin::default() };
        let finds = |row: usize, order: i32| {
            list[row + 1..].iter().any(|later| [order, order - 1].contains(&(later.1 as i32)))
        };
        let fault = (0..rows).find(|&row| {
            let order = list[row].1 as i32;
            let last = row == rows - 1;
            !(1..=8).contains(&order) || (last && order != 1) || (!last && !finds(row, order))
        });
        let expected = fault.map_or((0, 0), |row| (2, row as u64));
        assert_eq!(check(&basin.encode()), expected, "{list:?}");
        accepted += fault.is_none() as usize;
    }
    println!("20000 lists of orders, {accepted} of them accepted");
    assert!((1000..10_000).contains(&accepted), "{accepted}");
}

/// Two faults in different sections: of their numbers the lower is given.
#[test]
fn the_lowest_number_is_given() {
    let rng = &mut Rng::new(3);
    // Edits that put in stations of their own leave no other section to damage.
    let keeps_rest = |before: &Basin, after: &Basin| {
        before.rights.len() == after.rights.len() && before.stations.len() == after.stations.len()
    };
    let mut pairs = 0;
    for base in [rich_base(), any_river(&mut Rng::new(44)).basin] {
        for &(name, number, edit) in BROKEN.iter() {
            for &(other, higher, also) in BROKEN.iter() {
                let mut basin = base.clone();
                if higher <= number || also(&mut basin, rng).is_none() {
                    continue;
                }
                let Some(place) = edit(&mut basin, rng) else {
                    continue;
                };
                if !keeps_rest(&base, &basin) {
                    continue;
                }
                let told = check(&basin.encode());
                assert_eq!(told, (number, place as u64), "{name}, and {other}");
                let mut longer = basin.encode();
                longer.push(0);
                assert_eq!(check(&longer), (1, 0), "{name}, and one byte longer");
                pairs += 1;
            }
        }
    }
    println!("{pairs} pairs of damages in two sections");
    assert!(pairs > 3000, "{pairs}");
}

/// What a call does with a refused file: the same answer, nothing changed.
#[test]
fn refused_files_change_nothing() {
    let rng = &mut Rng::new(4);
    for &(name, number, edit) in BROKEN.iter() {
        let mut basin = rich_base();
        let place = edit(&mut basin, rng).unwrap() as u64;
        let file = basin.encode();
        let mut board = vec![3; BOARD];
        let mut report = vec![4; basin.report_length()];
        let runoff = vec![1; basin.stations.len()];
        assert_eq!(fresh(&file, &mut board), (number, place), "{name}");
        assert_eq!(month(&file, &runoff, &mut board, &mut report), (number, place), "{name}");
        assert_eq!(stock(&file, &board), [number, place, 0, 0], "{name}");
        assert_eq!(short_months(&file, &board, 0), [number, place, 0], "{name}");
        assert!(board.iter().all(|&n| n == 3) && report.iter().all(|&n| n == 4), "{name}");
    }
}

#[test]
fn each_impossible_board_is_refused() {
    let rng = &mut Rng::new(5);
    let mut found = BTreeSet::new();
    for seed in 0..120 {
        let river = any_river(&mut Rng::new(seed));
        for &(name, edit) in IMPOSSIBLE {
            let mut board = river.possible_board(rng);
            if impossible_board(edit, &river.basin, &mut board, rng).is_none() {
                continue;
            }
            found.insert(name);
            let before = board.clone();
            let mut report = vec![9; river.basin.report_length()];
            let mut runoff = river.runoff(rng);
            assert_eq!(stock(&river.file, &board), [7, 0, 0, 0], "{name}, seed {seed}");
            assert_eq!(short_months(&river.file, &board, 0), [7, 0, 0], "{name}, seed {seed}");
            // 7 comes before 8.
            runoff[0] = *rng.pick(&[0, u32::MAX]);
            let answer = month(&river.file, &runoff, &mut board, &mut report);
            assert_eq!(answer, (7, 0), "{name}, seed {seed}");
            assert_eq!(board, before, "{name}");
            assert!(report.iter().all(|&number| number == 9), "{name}");
            // Fresh does not look at what stood on the board.
            assert_eq!(fresh(&river.file, &mut board), (0, 0), "{name}");
        }
    }
    assert_eq!(found.len(), IMPOSSIBLE.len());
}

#[test]
fn each_extreme_board_is_possible() {
    let rng = &mut Rng::new(6);
    for seed in 0..60 {
        let river = any_river(&mut Rng::new(seed));
        for &(name, edit) in POSSIBLE {
            let mut board = river.possible_board(rng);
            edit(&river.basin, &mut board);
            let storages: u64 = board[1..9].iter().sum();
            let dues: u64 = board[266..970].iter().sum();
            assert_eq!(stock(&river.file, &board), [0, 0, storages, dues], "{name}");
            let mut report = vec![0; river.basin.report_length()];
            let m = board[NEXT_MONTH];
            let answer = month(&river.file, &river.runoff(rng), &mut board, &mut report);
            assert_eq!(answer.0, 0, "{name}");
            assert_eq!(board[NEXT_MONTH], (m + 1) % 12);
            // The board it leaves is one for the next call.
            assert_eq!(stock(&river.file, &board)[0], 0, "{name}");
        }
    }
}

#[test]
fn wrong_lengths_are_refused() {
    let rng = &mut Rng::new(7);
    for seed in 0..40 {
        let river = any_river(&mut Rng::new(seed));
        let rows = river.basin.stations.len();
        let length = river.basin.report_length();
        let good = river.possible_board(rng);
        // Runoff, board and report lengths, and whether the call is accepted.
        let calls = [
            (rows, BOARD, length, true),
            (rows, BOARD, length + 1, true),
            (rows, BOARD, length + 1000, true),
            (rows, BOARD, length - 1, false),
            (rows, BOARD, 0, false),
            (rows, BOARD - 1, length, false),
            (rows, BOARD + 1, length, false),
            (rows, 0, length, false),
            (rows - 1, BOARD, length, false),
            (rows + 1, BOARD, length, false),
            (0, BOARD, length, false),
            (0, 0, 0, false),
        ];
        for (runoffs, boards, reports, accepted) in calls {
            let mut board: Vec<u64> = good.iter().copied().chain([0]).take(boards).collect();
            let before = board.clone();
            let mut report = vec![6; reports];
            // Numbers over the limit do not matter where a length is wrong.
            let runoff = vec![if accepted { 5 } else { u32::MAX }; runoffs];
            let answer = month(&river.file, &runoff, &mut board, &mut report);
            if accepted {
                assert_eq!(answer.0, 0);
                assert!(report[length..].iter().all(|&number| number == 6));
                continue;
            }
            assert_eq!(answer, (6, 0), "{runoffs} {boards} {reports} of {rows} {length}");
            assert_eq!(board, before);
            assert!(report.iter().all(|&number| number == 6));
        }
        for boards in [0, 969, 970, 971, 1225, 1227] {
            let mut board = vec![8; boards];
            assert_eq!(fresh(&river.file, &mut board), (6, 0));
            assert_eq!(stock(&river.file, &board), [6, 0, 0, 0]);
            assert_eq!(short_months(&river.file, &board, 0), [6, 0, 0]);
            assert!(board.iter().all(|&number| number == 8));
        }
    }
}

#[test]
fn runoff_over_its_limit_is_refused_at_the_first_row() {
    let rng = &mut Rng::new(8);
    for seed in 0..60 {
        let river = river_of(&mut Rng::new(seed), Size::Middle);
        let rows = river.basin.stations.len();
        let mut board = river.possible_board(rng);
        let before = board.clone();
        let mut report = vec![6; river.basin.report_length()];
        let first = rng.below(rows);
        let mut runoff = vec![MOST_RUNOFF; rows];
        for over in &mut runoff[first..] {
            *over = *rng.pick(&[MOST_RUNOFF + 1, u32::MAX, MOST_RUNOFF]);
        }
        runoff[first] = MOST_RUNOFF + 1;
        let answer = month(&river.file, &runoff, &mut board, &mut report);
        assert_eq!(answer, (8, first as u64));
        assert_eq!(board, before);
        assert!(report.iter().all(|&number| number == 6));
        // Exactly the limit in every reach is accepted.
        runoff.fill(MOST_RUNOFF);
        assert_eq!(month(&river.file, &runoff, &mut board, &mut report).0, 0);
    }
}

/// Random damage is answered, whatever it is, and mostly refused.
#[test]
fn random_damage_is_answered() {
    let rng = &mut Rng::new(9);
    let mut numbers = [0; 6];
    for seed in 0..400 {
        let river = any_river(&mut Rng::new(seed));
        for _ in 0..50 {
            let file = random_damage(rng, &river.file);
            let (number, place) = check(&file);
            assert!(number <= 5);
            assert!(number > 1 || place == 0);
            numbers[number as usize] += 1;
        }
    }
    let files: usize = numbers.iter().sum();
    println!("{files} files damaged at random, by number 0 to 5 {numbers:?}");
    assert!(numbers.iter().all(|&times| times > 200), "{numbers:?}");
}
