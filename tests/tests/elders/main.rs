//! Younger rights can't touch this month's elder ones (02, No. 8): two basins that agree in
//! stations, reservoirs, patterns and their first rights, run on one board with the same runoff,
//! have the same two amounts, reason and station for each of these.
//!
//! `RIVER_SEED` is the first seed, `RIVER_PAIRS` how many pairs are drawn. A pair depends on its
//! seed alone, so `RIVER_SEED=n RIVER_PAIRS=1` draws the one that a message names.

mod compare;
mod pairs;
mod permits;
mod season;

use compare::{Met, MonthCall};
use pairs::{Pair, CHANGES, SAME};
use river_tests::calls::{by_each, Calls, ENGINES};
use river_tests::engine::board::BOARD;
use river_tests::engine::month::month;
use river_tests::engine::slip::{Slip, Slipped, ALL};
use river_tests::seeds::{first_seed, from_environment};

const PAIRS: u64 = 7000;

// ---- pairs ----

/// The two agree as they should; both files are accepted, and begin on the same board.
fn assert_sound(calls: &Calls, pair: &Pair) {
    let [one, other] = pair.basins.each_ref().map(|basin| {
        let elders = &basin.rights[..pair.elders];
        (&basin.stations, &basin.reservoirs, &basin.patterns, elders)
    });
    assert!(one == other, "{}: no pair", pair.at());
    let fresh = pair.files.each_ref().map(|file| {
        assert_eq!((calls.check)(file), (0, 0), "{}", pair.at());
        let mut board = vec![7; BOARD];
        assert_eq!((calls.fresh)(file, &mut board), (0, 0), "{}", pair.at());
        board
    });
    assert!(fresh[0] == fresh[1], "{}: fresh boards", pair.at());
}

fn compare_pair(calls: &Calls, pair: &Pair, met: &mut Met) {
    assert_sound(calls, pair);
    met.count_pair(pair);
    for (number, call) in pair.calls.iter().enumerate() {
        let told = pair.told(&calls.month, call);
        let at = format!("{}, call {number}", pair.at());
        assert_eq!(told.each_ref().map(|told| told.answer.0), [0, 0], "{at}: refused");
        if let Some(right) = pair.differs(&told) {
            let [one, other] = told.each_ref().map(|told| told.line(right));
            panic!("{at}: right {right} has {one:?} and {other:?}");
        }
        met.count_month(pair, call, &told);
    }
}

#[test]
fn elder_rights_have_the_same_lines() {
    let pairs = from_environment("RIVER_PAIRS").unwrap_or(PAIRS);
    by_each(|calls| {
        let mut met = Met::default();
        for seed in first_seed()..first_seed() + pairs {
            compare_pair(calls, &Pair::draw(seed), &mut met);
        }
        met.print();
        // A short run by hand need not meet everything.
        if pairs >= PAIRS {
            assert_met(&met);
        }
    });
}

/// The reasons that a right can have, of kinds 1 to 4 in turn.
const REASONS: [&[usize]; 4] = [&[0, 1, 2], &[0, 3], &[0, 2], &[0, 1, 2]];

/// Elder rights of every kind came off in every way, and the rest differed in every way.
fn assert_met(met: &Met) {
    for (kind, reason) in (0..16).map(|case| (case / 4, case % 4)) {
        let lines = met.lines[kind + 1][reason];
        let possible = REASONS[kind].contains(&reason);
        assert!(if possible { lines > 500 } else { lines == 0 }, "{met:?}");
    }
    assert!(met.no_elders > 1000 && met.all_elders > 500, "{met:?}");
    assert!(met.unlike_numbers > 2000 && met.largest > 500, "{met:?}");
    assert!(met.fresh > 1000 && met.octobers > 1000, "{met:?}");
    for ((change, _), [any, _, rows, shorts, board]) in CHANGES.iter().zip(met.differs) {
        let often = any > 1200 && rows > 1000 && shorts > 400 && board > 1000;
        assert!(often || *change == SAME, "{met:?}");
    }
    assert!(met.differs.iter().map(|differs| differs[1]).sum::<usize>() > 4000, "{met:?}");
}

// ---- wrong engines ----

/// Wrong engines in which younger rights touch elder ones: the three that count later rights
/// or look at them, and the one that goes back to those already served when all have had their
/// turn. What is wrong in any other is wrong alike in both basins.
const LET_IN: [Slip; 4] = [
    Slip::DemandByNumberOfRights,
    Slip::LaterRightsCallFirst,
    Slip::StorageKeptForLater,
    Slip::ReturnUsedBySenior,
];

/// Whether some month of a pair, accepted of both basins, has unlike lines of an elder right.
fn lets_in(month: MonthCall, pair: &Pair) -> bool {
    pair.calls.iter().any(|call| {
        let told = pair.told(month, call);
        told.iter().all(|told| told.answer.0 == 0) && pair.differs(&told).is_some()
    })
}

/// The pairs see those that let younger rights in, and no other.
#[test]
fn wrong_engines_are_seen() {
    let pairs: Vec<Pair> = (0..100).map(Pair::draw).collect();
    let mut seen = Vec::new();
    // Those of the store run no month.
    for &(slip, name, wrong) in ALL.iter().filter(|slip| !slip.0.of_store()) {
        let month = |file: &[u8], runoff: &[u32], board: &mut [u64], report: &mut [u64]| {
            month(&Slipped(slip), file, runoff, board, report)
        };
        let found = pairs.iter().position(|pair| lets_in(&month, pair));
        if let Some(place) = found {
            println!("{name}, {wrong}: seen in pair {}", place + 1);
            seen.push(slip);
        }
    }
    assert_eq!(seen, LET_IN);
}

/// A difference is told with the seed, the change and the right.
#[test]
#[should_panic(
    expected = "SEED=5, at other rows, with other returns, 5 elder rights, call 1: right 4 "
)]
fn a_difference_is_named() {
    let wrong = Calls {
        month: |file, runoff, board, report| {
            month(&Slipped(Slip::LaterRightsCallFirst), file, runoff, board, report)
        },
        ..ENGINES[0]
    };
    compare_pair(&wrong, &Pair::draw(5), &mut Met::default());
}
