//! Numbers from outside: the source manual's tables and the departures from it,
//! worked out by hand under 01's rules, asked of every engine.

use river_tests::calls::{by_each, Calls};
use river_tests::engine::board::{due, MARKS, TAKEN};
use river_tests::engine::records::*;
use river_tests::engine::slip::Faithful;
use river_tests::engine::split::Split;
use river_tests::engine::tally;
use river_tests::examples::*;
use river_tests::run::Run;

fn assert_split(amount: i64, percents: &[u8], shares: &[i64]) {
    let mut split = Split::of(amount);
    let told: Vec<i64> = percents.iter().map(|&p| split.share(&Faithful, p)).collect();
    assert_eq!(told, shares, "{amount} by {percents:?}");
    let slow: Vec<i64> = tally::split(amount as i128, percents).iter().map(|&s| s as i64).collect();
    assert_eq!(slow, shares, "{amount} by {percents:?}");
    by_each(|calls| assert_split_in_a_month(calls, amount as u32, percents, shares));
}

/// A right that consumes nothing returns its whole grant at the row below, by a
/// pattern that begins with these percents; what they lack of 100 comes last.
fn assert_split_in_a_month(calls: &'static Calls, amount: u32, percents: &[u8], shares: &[i64]) {
    let rest = 100 - percents.iter().sum::<u8>();
    let basin = Basin {
        stations: stations(&[(1, 1), (2, 1)]),
        patterns: vec![pattern(&[percents, &[rest]].concat())],
        rights: vec![direct(1, 19000101, 0, amount).returning(0, 0, &[(1, 100)])],
        ..Basin::default()
    };
    let mut run = Run::of(calls, &basin);
    assert_eq!(run.month(&[amount, 0]), 0);
    assert_eq!(run.flow(), [0, shares[0] as u64], "{amount} by {percents:?}");
    for (k, &share) in shares.iter().enumerate().skip(1) {
        assert_eq!(run.board[due(1, k)], share as u64, "{amount} by {percents:?}, {k} months on");
    }
}

#[test]
fn splits_of_table_ii_1() {
    assert_split(10000, &[25, 38, 37], &[2500, 3800, 3700]);
    assert_split(2500, &[25, 75], &[625, 1875]);
    assert_split(3700, &[50, 50], &[1850, 1850]);
    assert_split(625, &[30, 70], &[187, 438]);
    assert_split(1875, &[5, 95], &[93, 1782]);
    assert_split(1850, &[15, 85], &[277, 1573]);
    assert_split(1850, &[5, 95], &[92, 1758]);
    // Delay table 11 begins 59, 27, 4.
    assert_split(10000, &[59, 27, 4], &[5900, 2700, 400]);
    assert_split(805, &[59, 27, 4], &[474, 218, 32]);
    assert_split(99, &[59, 27, 4], &[58, 27, 4]);
}

/// Table II-2, a 5 cfs right: the amounts come out month for month when there is
/// water enough, and nothing in the months that are not in use.
#[test]
fn five_cfs_right() {
    by_each(|calls| {
        let amounts = [922, 0, 0, 0, 0, 0, 0, 5226, 20529, 30744, 25517, 15471];
        let right = Right { amounts, months: 0xf81, ..direct(1, 19000101, 0, 0) };
        // The same schedule with the winter's amounts filled in: the bits decide.
        let filled = amounts.map(|amount| if amount == 0 { 77 } else { amount });
        let winter = Right { permit: 2, amounts: filled, ..right.clone() };
        let basin = Basin {
            stations: stations(&[(72204, 1)]),
            rights: vec![right, winter],
            ..Basin::default()
        };
        let mut run = Run::of(calls, &basin);
        for amount in amounts {
            assert_eq!(run.month(&[100_000]), 0);
            assert_eq!(run.grants()[0], [amount as u64, 0, 0, 0]);
            assert_eq!(run.grants()[1], [amount as u64, 0, 0, 0]);
            let left = 100_000 - 2 * amount as u64;
            assert_eq!((run.flow(), run.available()), (vec![left], vec![left]));
        }
    });
}

/// Table II-3, normal diversion with little available flow.
#[test]
fn little_available_flow() {
    by_each(|calls| {
        let basin = Basin {
            stations: stations(&[(72204, 2), (72208, 2), (72402, 1)]),
            patterns: vec![pattern(&[100])],
            rights: vec![
                instream(1, 19000101, 1, 119_010),
                direct(2, 19100101, 0, 11_901).returning(10, 0, &[(1, 100)]),
            ],
            ..Basin::default()
        };
        let mut run = Run::of(calls, &basin);
        assert_eq!(run.month(&[119_299, 0, 0]), 1);
        assert_eq!(run.grants()[0], [119_010, 0, 0, 0]);
        assert_eq!(run.grants()[1], [289, 0, 2, 72208]);
        // 28 of the 289 are consumed, 261 return.
        assert_eq!(run.flow(), [119_010, 119_271, 119_271]);
        assert_eq!(run.available(), [119_010, 261, 119_271]);
        assert_eq!(run.stock(), [0, 0, 0, 0]);
    });
}

fn three_in_a_row() -> Basin {
    Basin { stations: stations(&[(100, 1), (200, 1), (300, 1)]), ..Basin::default() }
}

/// A release raises flow only, with the reservoir's row.
#[test]
fn released_water_is_not_available() {
    by_each(|calls| {
        let no_area = [(0, 0), (1, 0), (2, 0), (3, 0)];
        let basin = Basin {
            reservoirs: vec![reservoir(0, 5000, 1000, no_area)],
            rights: vec![project(1, 19000101, 2, 0, 600), instream(2, 19100101, 1, 100)],
            ..three_in_a_row()
        };
        let mut run = Run::of(calls, &basin);
        assert_eq!(run.month(&[0, 0, 0]), 1);
        assert_eq!(run.grants()[0], [0, 600, 0, 0]);
        assert_eq!(run.grants()[1], [0, 0, 2, 200]);
        assert_eq!(run.flow(), [600, 600, 0]);
        assert_eq!(run.available(), [0, 0, 0]);
    });
}

/// A right is called by its own row and by those downstream, not from upstream.
#[test]
fn called_by_a_short_right_on_the_path() {
    by_each(|calls| {
        let basin = Basin {
            rights: vec![
                direct(1, 19000101, 1, 500),
                direct(2, 19100101, 1, 10),
                direct(3, 19200101, 2, 10),
                direct(4, 19300101, 0, 10),
            ],
            ..three_in_a_row()
        };
        let mut run = Run::of(calls, &basin);
        assert_eq!(run.month(&[200, 100, 50]), 3);
        assert_eq!(run.grants()[0], [300, 0, 2, 200]);
        assert_eq!(run.grants()[1], [0, 0, 1, 200]);
        assert_eq!(run.grants()[2], [10, 0, 0, 0]);
        assert_eq!(run.grants()[3], [0, 0, 1, 200]);
    });
}

/// Lakes of the RESYLD report, which reads areas on a straight line as 02, No. 1 does and
/// prints the evaporation in acre-feet: depth 25, one October.
#[test]
fn lake_areas_on_a_line() {
    by_each(|calls| {
        let acre_feet = |pairs: [(u32, u32); 4]| pairs.map(|(storage, area)| (100 * storage, area));
        let a = acre_feet([(0, 0), (93706, 6000), (162871, 7824), (250358, 9683)]);
        let c = acre_feet([(0, 0), (1652, 308), (12856, 2078), (43402, 4048)]);
        let d = acre_feet([(0, 0), (12856, 2078), (43402, 4048), (93706, 6000)]);
        let lakes = [
            (18_000_000, a, 204_675, 2047),
            (22_431_550, a, 228_225, 2282),
            (4_255_350, c, 99_825, 998),
            (6_968_750, d, 126_675, 1267),
        ];
        for (start, pairs, evaporation, printed) in lakes {
            let mut lake = reservoir(0, 2_000_000_000, start, pairs);
            lake.depths[0] = 25;
            let basin =
                Basin { stations: stations(&[(1, 1)]), reservoirs: vec![lake], ..Basin::default() };
            let mut run = Run::of(calls, &basin);
            run.month(&[0]);
            assert_eq!(run.evaporation(), [evaporation]);
            assert_eq!((evaporation + 50) / 100, printed);
            assert_eq!(run.stock(), [0, 0, start as u64 - evaporation, 0]);
        }
    });
}

/// After a release a reservoir that was filled is not stored into again in the same year.
#[test]
fn one_fill_a_year() {
    by_each(|calls| {
        let no_area = [(0, 0), (1, 0), (2, 0), (3, 0)];
        let basin = Basin {
            stations: stations(&[(1, 1), (2, 1)]),
            reservoirs: vec![reservoir(0, 100, 60, no_area)],
            rights: vec![storage(1, 19000101, 0, 0, 1000, 90), project(2, 19100101, 1, 0, 30)],
            ..Basin::default()
        };
        let mut run = Run::of(calls, &basin);
        // October: 40 fill it, 30 are released.
        run.month(&[40, 0]);
        assert_eq!((run.grants()[0], run.grants()[1]), ([40, 0, 0, 0], [0, 30, 0, 0]));
        assert_eq!(run.board[MARKS], 1);
        // November to September: marked, so there is no demand though there is room.
        for m in 1..12 {
            run.month(&[1000, 0]);
            assert_eq!(run.grants()[0], [0, 0, 0, 0], "month {m}");
        }
        assert_eq!(run.board[MARKS], 1);
        // The next October clears mark and taken: 30 of the 90 fill it again.
        run.month(&[30, 0]);
        assert_eq!(run.grants()[0], [30, 0, 0, 0]);
        assert_eq!(run.board[TAKEN], 30);
    });
}

/// A lake full from the start is not marked by its grant of 0, and may be stored
/// into after a release; the yearly limit still holds.
#[test]
fn a_zero_grant_does_not_mark() {
    by_each(|calls| {
        let no_area = [(0, 0), (1, 0), (2, 0), (3, 0)];
        let basin = Basin {
            stations: stations(&[(1, 1), (2, 1)]),
            reservoirs: vec![reservoir(0, 100, 100, no_area)],
            rights: vec![storage(1, 19000101, 0, 0, 1000, 25), project(2, 19100101, 1, 0, 30)],
            ..Basin::default()
        };
        let mut run = Run::of(calls, &basin);
        assert_eq!(run.month(&[0, 0]), 0);
        assert_eq!((run.grants()[0], run.board[MARKS]), ([0; 4], 0));
        // 70 are stored; 25 is the limit, so it is neither full nor marked nor short.
        assert_eq!(run.month(&[50, 0]), 0);
        assert_eq!((run.grants()[0], run.board[MARKS]), ([25, 0, 0, 0], 0));
    });
}
