//! The assertions can fail: each is shown a run that breaks it.

use super::*;
use crate::examples::{october, OCTOBER_RUNOFF};

fn after_one_month() -> Tally {
    let mut tally = Tally::new(&october().encode());
    assert_eq!(tally.call(&OCTOBER_RUNOFF, 28), (0, 2));
    tally
}

#[test]
#[should_panic(expected = "water sum")]
fn water_that_vanishes_is_seen() {
    let mut tally = after_one_month();
    tally.months[0].flow[2] -= 1;
    tally.call(&OCTOBER_RUNOFF, 28);
}

#[test]
#[should_panic(expected = "water sum")]
fn water_that_appears_in_a_lake_is_seen() {
    let mut tally = after_one_month();
    tally.storages[0] += 1;
    tally.call(&[], 0); // refused, and asserted all the same
}

/// Of 1200 as much is consumed as of 1201, and nothing is on its way: one less has gone deep.
#[test]
#[should_panic(expected = "water sum")]
fn deep_loss_that_vanishes_is_seen() {
    let basin = Basin { patterns: vec![[0; MONTHS]], ..october() };
    let mut tally = Tally::new(&basin.encode());
    assert_eq!(tally.call(&OCTOBER_RUNOFF, 28).0, 0);
    tally.months[0].grants[1].from_river -= 1;
    tally.call(&[], 0);
}

/// November of the worked October, with 7 more due in December at the start than come.
#[test]
#[should_panic(expected = "water sum")]
fn dues_of_the_start_that_vanish_are_seen() {
    let mut board = [0; 1226];
    (board[0], board[1], board[266 + 1]) = (1, 1026, 300);
    let mut tally = Tally::on_board(&october().encode(), &board);
    assert_eq!(tally.call(&OCTOBER_RUNOFF, 28).0, 0);
    assert_eq!(tally.pending_returns()[0][0], 300);
    assert_eq!(tally.call(&OCTOBER_RUNOFF, 28).0, 0);
    tally.start.dues[0][1] += 7;
    tally.call(&[], 0);
}

/// A start in August with the words of a year: that month and September have their bits
/// overwritten, and after October none of the start's is left.
#[test]
fn short_months_begin_with_those_of_the_start() {
    let mut board = [0; 1226];
    (board[0], board[970], board[971]) = (10, 0b1101_0000_0001, 0b0000_0000_0010);
    let mut tally = Tally::on_board(&october().encode(), &board);
    let word_and_months =
        |tally: &Tally, right| (tally.short_word(right), tally.short_months(right));
    assert_eq!([0, 1].map(|right| word_and_months(&tally, right)), [(0xd01, 4), (2, 1)]);
    // Nothing rains, so that both are short; then it does.
    assert_eq!(tally.call(&[0; 3], 28).0, 0);
    assert_eq!([0, 1].map(|right| word_and_months(&tally, right)), [(0xd01, 4), (0x402, 2)]);
    assert_eq!(tally.call(&[9000; 3], 28).0, 0);
    assert_eq!([0, 1].map(|right| word_and_months(&tally, right)), [(0x501, 3), (0x402, 2)]);
    assert_eq!(tally.call(&[0; 3], 28).0, 0);
    assert_eq!([0, 1, 5].map(|right| tally.short_months(right)), [1, 1, 0]);
}

#[test]
#[should_panic(expected = "account of reservoir 0")]
fn water_moved_from_river_to_lake_is_seen() {
    let mut tally = after_one_month();
    tally.storages[0] += 1;
    tally.months[0].flow[2] -= 1;
    tally.call(&[], 0);
}

#[test]
#[should_panic(expected = "after returns: available flow 6 of flow 5 at row 1")]
fn available_flow_above_flow_is_seen() {
    River { flow: vec![5, 5], available: vec![5, 6] }.assert_in_bounds("after returns");
}

#[test]
#[should_panic(expected = "available flow -1")]
fn available_flow_below_nothing_is_seen() {
    River { flow: vec![5, 5], available: vec![-1, 5] }.assert_in_bounds("after returns");
}
