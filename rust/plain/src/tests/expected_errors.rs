//! The five errors of "Errors we expect someone to make".

use super::by_hand::case_b;
use super::support::*;
use crate::window::HeadFields;

#[test]
fn the_period_end_is_not_rounded_down_to_a_tick() {
    let mut lent = Lent::opened(CASE_D, 0, 30);
    assert_eq!(lent.append(0, 1, 1), 0);
    assert_eq!(lent.verdict_whole(), Ok([2, 2, 1, 1, 50]));
    assert_eq!(lent.verdict(500), Ok([2, 2, 1, 1, 50]));
}

#[test]
fn a_reference_is_not_judged_by_its_start() {
    let mut lent = case_b();
    assert_eq!(lent.trim(14_001), 0);
    assert_eq!(lent.record[DROPPED], 1);
    assert_eq!(lent.table[..3], [4_000, 4_000, 4]);
}

#[test]
fn a_reference_over_the_period_end_is_spent_with_the_period() {
    // The period ends at 1,000 ms, the last reference at 1,500 ms; the window is 100 ms deep.
    let head = HeadFields {
        depth: 100,
        ..SHORT
    };
    let mut lent = Lent::opened(head, 0, 30);
    assert_eq!(lent.append(0, 750, 2), 0);
    assert_eq!(lent.trim(1_099), 0);
    assert_eq!(lent.record[DROPPED], 1);
    assert_eq!(lent.trim(1_100), 0);
    assert_eq!(lent.record[DROPPED], 2);
    assert_eq!(lent.record[RUNS_USED], 0);
}

#[test]
fn next_tick_and_number_outlive_an_emptied_table() {
    let mut lent = case_b();
    assert_eq!(lent.trim(1_000_000), 0);
    assert_eq!(lent.record[RUNS_USED], 0);
    assert!(lent.table.iter().all(|word| *word == 0));
    assert_eq!(lent.record[NEXT_TICK], 20_000);
    assert_eq!(lent.append(0, 4_000, 1), 5);
    assert_eq!(lent.append(20_001, 4_000, 1), 4);
    // Long enough for one reference to be kept: it bears the number after the five and this one.
    assert_eq!(lent.append(20_000, 980_000, 1), 0);
    assert_eq!(lent.availability(5), Err(13));
    assert_eq!(lent.availability(6), Ok([1, 1_000_000_000, 1_990_000_000]));
    assert_eq!(lent.availability(7), Err(13));
}

#[test]
fn percent_is_not_rounded_up() {
    assert_eq!(case_b().verdict(20_001), Ok([2, 10_000, 9_999, 20_000, 99]));
    assert_eq!(crate::verdict::percent(9_999, 10_000), Some(99));
    assert_eq!(crate::verdict::percent(0, 0), None);
}
