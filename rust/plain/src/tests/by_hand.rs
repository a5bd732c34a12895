//! The cases of "By hand", the marked ones and the others, and the worked file.

use super::support::*;
use crate::window::HeadFields;

fn case_a() -> Lent {
    let mut lent = Lent::opened(CASE_A, 111, 30);
    assert_eq!(lent.append(111, 40, 1), 0);
    assert_eq!(lent.append(151, 10, 1), 0);
    lent
}

/// Case B with its five references.
pub fn case_b() -> Lent {
    five_of_4000(CASE_B)
}

fn five_of_4000(head: HeadFields) -> Lent {
    let mut lent = Lent::opened(head, 0, 30);
    assert_eq!(lent.append(0, 4000, 5), 0);
    lent
}

/// Case B after its trim at 18,000, as it is written.
const WORKED_FILE: &str = "\
05000003e80000000000000000000000000000000000000000000000000000000000002710000000030000000000000000
020000000000001f4000000fa000000002
0300000001
";

/// The same with the head line that was written before there was an update period.
const OLD_WORKED_FILE: &str = "\
01000003e8000000000000000000000000000000000000000000000000000000000000271000000003
020000000000001f4000000fa000000002
0300000001
";

#[test]
fn a_next_tick_and_gap() {
    let mut lent = case_a();
    assert_eq!(lent.record[NEXT_TICK], 161);
    assert_eq!(lent.append_by(170, 10, 1), (4, 9));
    assert_eq!(lent.append_by(160, 10, 1), (5, 1));
    assert_eq!(lent.append_by(0, 10, 1), (5, 161));
    assert_eq!(lent.append_by(161, 10, 1), (0, 0));
    assert_eq!(lent.append_by(170, 10, 1), (5, 1));
}

#[test]
fn a_availability_of_the_first() {
    let lent = case_a();
    assert_eq!(lent.availability(0), Ok([0, 351_000, 0]));
    assert_eq!(lent.available_at(0, 35_099), Ok(false));
    assert_eq!(lent.available_at(0, 35_100), Ok(true));
}

#[test]
fn a_whole_period() {
    assert_eq!(case_a().verdict_whole(), Ok([2, 100, 50, 100, 50]));
}

#[test]
fn a_words() {
    let lent = case_a();
    assert_eq!(
        lent.record,
        [10, 100, 30_000, 10_000, 0, 0, 0, 2, 0, 161, 0, 2]
    );
    assert_eq!(lent.table[..6], [111, 40, 1, 151, 10, 1]);
    assert!(lent.table[6..].iter().all(|word| *word == 0));
}

/// The trims of case B, which no update period moves.
fn trims_of_case_b(mut lent: Lent) {
    for (clock, dropped) in [(13_999, 0), (14_000, 1), (18_000, 2)] {
        assert_eq!(lent.trim(clock), 0);
        assert_eq!(lent.record[DROPPED], dropped);
        assert_eq!(lent.record[ACCEPTED], 5);
        assert_eq!(lent.table[..3], [dropped * 4000, 4000, 5 - dropped]);
    }
}

#[test]
fn b_trims() {
    trims_of_case_b(case_b());
}

#[test]
fn b_an_earlier_clock_changes_nothing() {
    let mut lent = case_b();
    assert_eq!(lent.trim(18_000), 0);
    let before = lent.clone();
    assert_eq!(lent.trim(14_000), 0);
    assert_eq!(lent.trim(18_000), 0);
    assert_eq!(lent, before);
}

/// Case B as its packager sends it: a call for each reference, with the clock at its end.
fn b_a_call_for_each() -> Lent {
    let mut lent = Lent::opened(CASE_B, 0, 30);
    for (end, dropped) in [(4000, 0), (8000, 0), (12_000, 0), (16_000, 1), (20_000, 2)] {
        assert_eq!(lent.append_trim(end as u32 - 4000, 4000, 1, end), 0);
        assert_eq!(lent.record[ACCEPTED], end / 4000);
        assert_eq!(lent.record[DROPPED], dropped);
        assert_eq!(lent.record[GREATEST_CLOCK], end);
        let kept = end / 4000 - dropped;
        assert_eq!(lent.table[..3], [dropped * 4000, 4000, kept]);
    }
    lent
}

#[test]
fn b_an_append_with_a_trim_is_the_two_calls() {
    let mut two_calls = case_b();
    assert_eq!(two_calls.trim(20_000), 0);
    assert_eq!(b_a_call_for_each(), two_calls);
    let mut one_call = Lent::opened(CASE_B, 0, 30);
    assert_eq!(one_call.append_trim(0, 4000, 5, 20_000), 0);
    assert_eq!(one_call, two_calls);
}

#[test]
fn b_a_gap_with_a_later_clock_does_not_trim() {
    let mut lent = b_a_call_for_each();
    let before = lent.clone();
    assert_eq!(lent.append_trim_by(24_000, 4000, 1, 28_000), (4, 4000));
    assert_eq!(lent.append_trim_by(16_000, 4000, 1, 28_000), (5, 4000));
    assert_eq!(lent, before);
    // The second of two calls trims all the same.
    assert_eq!(lent.append_stamp_by(24_000, 4000, 1), (4, 4000));
    assert_eq!(lent.trim(28_000), 0);
    assert_eq!(lent.record[DROPPED], 4);
}

#[test]
fn b_a_clock_over_its_limit_appends_nothing() {
    let mut lent = b_a_call_for_each();
    let before = lent.clone();
    assert_eq!(lent.append_trim(20_000, 4000, 1, 100_000_000_001), 10);
    assert_eq!(lent.append_trim_by(20_001, 0, 1, 100_000_000_001), (10, 0));
    assert_eq!(lent, before);
    // The first of two calls stands.
    assert_eq!(lent.append_stamp(20_000, 4000, 1), 0);
    assert_eq!(lent.trim(100_000_000_001), 10);
    assert_eq!(lent.record[ACCEPTED], 6);
}

#[test]
fn b_an_append_with_an_earlier_clock_trims_nothing() {
    let mut lent = b_a_call_for_each();
    for (clock, kept) in [(0, 4), (19_999, 5), (20_000, 6)] {
        assert_eq!(lent.join_trim(4000, 1, clock), 0);
        assert_eq!(lent.record[GREATEST_CLOCK], 20_000);
        assert_eq!(lent.table[..3], [8000, 4000, kept]);
    }
}

/// At 14,000 the one run is spent and would make room, at 19,000 what is given is spent too.
#[test]
fn b_room_is_judged_before_the_trim() {
    let mut full = Lent::opened(CASE_B, 0, 3);
    assert_eq!(full.append(0, 4000, 1), 0);
    for clock in [14_000, 18_999, 19_000, 100_000_000_000] {
        assert_eq!(full.append_trim(4000, 5000, 1, clock), 9);
    }
    assert_eq!(full.trim(14_000), 0);
    assert_eq!(full.append_trim(4000, 5000, 1, 19_000), 0);
    assert_eq!((full.record[ACCEPTED], full.record[DROPPED]), (2, 2));
}

#[test]
fn b_spent_at_once_goes_by_the_clock_before_the_call() {
    let mut no_room = Lent::opened(CASE_B, 0, 0);
    assert_eq!(no_room.append_trim(0, 4000, 1, 14_000), 9);
    assert_eq!(no_room.trim(14_000), 0);
    assert_eq!(no_room.append_trim(0, 4000, 1, 0), 0);
    assert_eq!((no_room.record[ACCEPTED], no_room.record[DROPPED]), (1, 1));
}

#[test]
fn b_verdicts_without_trims() {
    let lent = case_b();
    assert_eq!(lent.verdict(14_000), Ok([1, 10_000, 10_000, 0, 100]));
    assert_eq!(lent.verdict(20_001), Ok([2, 10_000, 9_999, 20_000, 99]));
    assert_eq!(lent.verdict(0), Ok([0; 5]));
}

#[test]
fn b_availability_of_number_3() {
    let lent = case_b();
    assert_eq!(lent.availability(3), Ok([1, 12_000_000, 26_000_000]));
    assert_eq!(lent.available_at(3, 11_999), Ok(false));
    assert_eq!(lent.available_at(3, 12_000), Ok(true));
    assert_eq!(lent.available_at(3, 25_999), Ok(true));
    assert_eq!(lent.available_at(3, 26_000), Ok(false));
}

#[test]
fn b_the_worked_file() {
    let mut lent = case_b();
    assert_eq!(lent.trim(18_000), 0);
    assert_eq!(lent.write(), Ok(WORKED_FILE.as_bytes().to_vec()));
    assert_eq!(WORKED_FILE.lines().next().map(str::len), Some(98));
    let length = WORKED_FILE.len();
    assert_eq!(length, 145);
    assert_eq!(lent.write_into(length), Ok(WORKED_FILE.as_bytes().to_vec()));
    assert_eq!(lent.write_into(length - 1), Err(15));
}

#[test]
fn b_the_worked_file_read_back() {
    let mut lent = case_b();
    assert_eq!(lent.trim(18_000), 0);
    let record = [1000, 0, 0, 0, 10_000, 3, 0, 3, 0, 20_000, 0, 1];
    for text in [WORKED_FILE, OLD_WORKED_FILE] {
        let again = read_into(30, text).expect("an accepted file");
        assert_eq!(again.table, lent.table);
        assert_eq!(again.record, record);
        assert_eq!(again.write(), Ok(WORKED_FILE.as_bytes().to_vec()));
    }
}

#[test]
fn b_with_an_update_period_covers_past_the_clock_too() {
    let lent = five_of_4000(CASE_B_UPDATE);
    assert_eq!(lent.verdict(0), Ok([1, 2_000, 2_000, 0, 100]));
    assert_eq!(lent.verdict(14_000), Ok([1, 12_000, 12_000, 0, 100]));
    assert_eq!(lent.verdict(18_000), Ok([1, 12_000, 12_000, 0, 100]));
    assert_eq!(lent.verdict(18_001), Ok([2, 12_000, 11_999, 20_000, 99]));
    assert_eq!(lent.covered_edge(), Ok([1, 18_000]));
}

#[test]
fn b_with_an_update_period_trims_and_is_available_as_before() {
    let lent = five_of_4000(CASE_B_UPDATE);
    assert_eq!(lent.availability(3), Ok([1, 12_000_000, 26_000_000]));
    assert_eq!(lent.verdict_whole(), Err(19));
    trims_of_case_b(lent);
}

#[test]
fn b_with_an_update_period_compares_the_clock_that_is_given() {
    let mut lent = five_of_4000(CASE_B_UPDATE);
    assert_eq!(lent.trim(18_000), 0);
    assert_eq!(lent.verdict(17_999), Err(11));
    assert_eq!(lent.verdict(18_000), Ok([1, 12_000, 12_000, 0, 100]));
}

#[test]
fn b_with_an_update_period_is_written_with_it() {
    let lent = five_of_4000(CASE_B_UPDATE);
    let text = file(CASE_B_UPDATE, &[(0, 4000, 4)]);
    assert!(text.starts_with("05000003e8") && text[..98].ends_with("00000000000007d0"));
    assert_eq!(lent.write(), Ok(text.clone().into_bytes()));
    assert_eq!(read_into(30, &text), Ok(lent));
}

/// A period start that the clock has not reached, and the update period has.
#[test]
fn the_window_opens_before_the_period_start() {
    let head = HeadFields {
        start: 10,
        update: 15,
        ..OPEN_ENDED
    };
    let mut lent = Lent::opened(head, 0, 30);
    assert_eq!(lent.verdict(0), Ok([2, 5, 0, 0, 0]));
    assert_eq!(lent.join(5, 1), 0);
    assert_eq!(lent.verdict(0), Ok([1, 5, 5, 0, 100]));
    assert_eq!(lent.verdict(1), Ok([2, 6, 5, 5, 83]));
    assert_eq!(lent.covered_edge(), Ok([1, 0]));
}

#[test]
fn c_stamps() {
    let opened = Lent::opened(OPEN_ENDED, 4_294_970_000, 30);
    for (stamp, answer) in [
        (2704, (0, 0)),
        (2705, (4, 1)),
        (2703, (5, 1)),
        (2_147_486_351, (4, 2_147_483_647)),
        (2_147_486_352, (5, 2_147_483_648)),
        (2_147_486_353, (5, 2_147_483_647)),
    ] {
        assert_eq!(opened.clone().append_stamp_by(stamp, 1, 1), answer);
    }
}

#[test]
fn c_a_joining_stamp_stores_the_full_tick() {
    let mut lent = Lent::opened(OPEN_ENDED, 4_294_970_000, 30);
    assert_eq!(lent.append_stamp(2704, 7, 2), 0);
    assert_eq!(lent.table[..3], [4_294_970_000, 7, 2]);
    assert_eq!(lent.record[NEXT_TICK], 4_294_970_014);
}

#[test]
fn d_the_period_needs_ticks_0_and_1() {
    let mut lent = Lent::opened(CASE_D, 0, 30);
    assert_eq!(lent.verdict_whole(), Ok([2, 2, 0, 0, 0]));
    assert_eq!(lent.append(0, 1, 1), 0);
    assert_eq!(lent.verdict_whole(), Ok([2, 2, 1, 1, 50]));
    assert_eq!(lent.append(1, 1, 1), 0);
    assert_eq!(lent.verdict_whole(), Ok([1, 2, 2, 0, 100]));
    assert_eq!(lent.append(2, 1, 1), 8);
}

#[test]
fn d_a_negative_r_gives_two() {
    let lent = read_into(30, &file(CASE_D, &[(0, 1, -1)])).expect("an accepted file");
    assert_eq!(lent.record[ACCEPTED], 2);
    assert_eq!(lent.table[..3], [0, 1, 2]);
}

#[test]
fn the_window_from_3_and_a_half_to_10_and_a_half_ticks() {
    // At timescale 500 a tick is two milliseconds: 7 ms is tick 3.5, 21 ms is tick 10.5.
    let head = HeadFields {
        timescale: 500,
        depth: 14,
        ..OPEN_ENDED
    };
    let lent = Lent::opened(head, 0, 30);
    assert_eq!(lent.verdict(21), Ok([2, 8, 0, 3, 0]));
}
