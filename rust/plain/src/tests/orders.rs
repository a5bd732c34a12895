//! The order of refusals, where a call could give several.

use super::by_hand::case_b;
use super::support::*;
use crate::units::{Millis, Tick};
use crate::window::HeadFields;

/// A period of 1,000 ms, and no number left for any reference.
const SHORT_NUMBERED: HeadFields = HeadFields {
    duration: 1_000,
    ..NUMBERED
};

#[test]
fn agreement_comes_before_all_else() {
    let mut lent = case_b();
    lent.record[NEXT_TICK] += 1;
    assert_eq!(lent.append(0, 0, 0), 2);
    assert_eq!(lent.append_stamp(0, 0, 0), 2);
    assert_eq!(lent.trim(u64::MAX), 2);
    assert_eq!(lent.append_trim(0, 0, 0, u64::MAX), 2);
    assert_eq!(lent.verdict(u64::MAX), Err(2));
    assert_eq!(lent.verdict_whole(), Err(2));
    assert_eq!(lent.availability(u64::MAX), Err(2));
    assert_eq!(lent.available_at(u64::MAX, u64::MAX), Err(2));
    assert_eq!(lent.touching(1, 0), Err(2));
    assert_eq!(lent.write_into(0), Err(2));
    let mut nothing_kept = Lent::opened(CASE_B, 0, 30);
    nothing_kept.record[NEXT_TICK] = Tick::MAX + 1;
    assert_eq!(nothing_kept.write_into(0), Err(2));
}

#[test]
fn an_append_is_3_before_4_and_5() {
    let mut lent = case_b();
    assert_eq!(lent.append_by(u64::MAX, 0, 1), (3, 0));
    assert_eq!(lent.append_by(0, 1, 0), (3, 0));
    assert_eq!(lent.append_stamp_by(20_001, 0, 1), (3, 0));
    assert_eq!(lent.append_stamp_by(0, 1, 0), (3, 0));
}

#[test]
fn an_append_is_3_before_the_rest() {
    let mut lent = Lent::opened(SHORT_NUMBERED, Tick::MAX, 0);
    assert_eq!(lent.append(Tick::MAX, 0, 1), 3);
    assert_eq!(lent.append(Tick::MAX, u32::MAX, 0), 3);
}

#[test]
fn an_append_is_4_or_5_before_6_to_9() {
    let mut lent = Lent::opened(SHORT_NUMBERED, Tick::MAX - 1, 0);
    assert_eq!(lent.append(Tick::MAX, u32::MAX, u32::MAX), 4);
    assert_eq!(lent.append(u64::MAX, u32::MAX, u32::MAX), 4);
    assert_eq!(lent.append(0, u32::MAX, u32::MAX), 5);
    let low = (Tick::MAX - 1) as u32;
    assert_eq!(lent.append_stamp(low + 1, u32::MAX, u32::MAX), 4);
    assert_eq!(lent.append_stamp(low - 1, u32::MAX, u32::MAX), 5);
}

#[test]
fn an_append_is_6_before_7_to_9() {
    let mut lent = Lent::opened(SHORT_NUMBERED, Tick::MAX, 0);
    assert_eq!(lent.append(Tick::MAX, 1, 1), 6);
    let mut many = Lent::opened(OPEN_ENDED, Tick::MAX - 5, 0);
    assert_eq!(many.join(1, u32::MAX), 6);
}

#[test]
fn an_append_is_7_before_8_and_9() {
    let mut lent = Lent::opened(SHORT_NUMBERED, 1_000, 0);
    assert_eq!(lent.join(1, 1), 7);
    let mut before_end = Lent::opened(SHORT_NUMBERED, 0, 0);
    assert_eq!(before_end.join(1, 1), 7);
}

#[test]
fn an_append_is_8_before_9() {
    assert_eq!(Lent::opened(SHORT, 1_000, 0).join(1, 1), 8);
    assert_eq!(Lent::opened(SHORT, 0, 0).join(1, 1_001), 8);
    assert_eq!(Lent::opened(SHORT, 0, 0).join(1, 1_000), 9);
}

/// Memory and an append that is refused in every way from 3 on that its number leaves standing.
fn refused_appends() -> Vec<(Lent, u32, u32, u32, u32)> {
    let high = Lent::opened(SHORT_NUMBERED, Tick::MAX, 0);
    let past = Lent::opened(SHORT_NUMBERED, 1_000, 0);
    vec![
        (high.clone(), 0, 0, 0, 3),
        (high.clone(), 0, u32::MAX, u32::MAX, 4),
        (high.clone(), u32::MAX - 1, u32::MAX, u32::MAX, 5),
        (high, u32::MAX, 1, 1, 6),
        (past, 1_000, 1, 1, 7),
        (Lent::opened(SHORT, 1_000, 0), 1_000, 1, 1, 8),
        (Lent::opened(SHORT, 0, 0), 0, 1, 1, 9),
    ]
}

#[test]
fn an_append_with_a_trim_is_10_before_3_to_9() {
    for (mut lent, stamp, duration, count, number) in refused_appends() {
        for clock in [Millis::MAX + 1, u64::MAX] {
            assert_eq!(lent.append_trim_by(stamp, duration, count, clock), (10, 0));
        }
        let alone = lent.append_stamp_by(stamp, duration, count);
        assert_eq!(alone.0, number);
        for clock in [0, 500, Millis::MAX] {
            assert_eq!(lent.append_trim_by(stamp, duration, count, clock), alone);
        }
    }
}

#[test]
fn other_calls() {
    let lent = case_b();
    assert_eq!(lent.available_at(u64::MAX, Millis::MAX + 1), Err(10));
    assert_eq!(Lent::opened(CASE_B, 0, 30).write_into(0), Err(12));
}

#[test]
fn a_line_is_16_before_17() {
    let head = head_line(SHORT);
    // A second head, an end too early, an S on line 1: each one digit short.
    assert_eq!(refused(&format!("{}{}", head, &head[1..])), (16, 2));
    assert_eq!(refused(&format!("{}{}", head, &end_line(0)[1..])), (16, 2));
    assert_eq!(refused(&s_line(0, 1, 0)[1..]), (16, 1));
    // Unended.
    assert_eq!(refused(end_line(0).trim_end()), (16, 1));
    assert_eq!(refused(&format!("{}{}", head, head.trim_end())), (16, 2));
}

#[test]
fn a_line_is_17_before_its_fields() {
    let head = head_line(SHORT);
    let bad_head = head_line(NO_TIMESCALE);
    assert_eq!(refused(&format!("{}{}", head, bad_head)), (17, 2));
    let bad_update = head_line(FAR_UPDATE);
    assert_eq!(refused(&format!("{}{}", head, bad_update)), (17, 2));
    assert_eq!(refused(&s_line(Tick::MAX + 1, 0, 0)), (17, 1));
    let closed = head + &s_line(0, 1, -1);
    assert_eq!(refused(&(closed.clone() + &s_line(0, 0, 0))), (17, 3));
    assert_eq!(refused(&(closed + &bad_head)), (17, 3));
}

#[test]
fn a_first_s_is_1_before_3() {
    assert_eq!(refused(&file(SHORT, &[(Tick::MAX + 1, 0, 0)])), (1, 2));
    assert_eq!(refused(&file(SHORT, &[(Tick::MAX + 1, 0, -1)])), (1, 2));
    assert_eq!(refused(&file(OPEN_ENDED, &[(ABSENT - 1, 0, -1)])), (1, 2));
}

#[test]
fn a_later_s_over_the_limit_is_3_then_4() {
    let over = Tick::MAX + 1;
    assert_eq!(refused(&file(SHORT, &[(0, 1, 0), (over, 0, 0)])), (3, 3));
    assert_eq!(refused(&file(SHORT, &[(0, 1, 0), (over, 1, 0)])), (4, 3));
    assert_eq!(refused(&file(SHORT, &[(0, 1, 0), (over, 1, -1)])), (4, 3));
    assert_eq!(
        refused(&file(SHORT, &[(0, 1, 0), (ABSENT - 1, 1, -1)])),
        (4, 3)
    );
}

#[test]
fn a_negative_r_is_3_before_4_5_and_18() {
    for t in [0, 5] {
        assert_eq!(refused(&file(OPEN_ENDED, &[(0, 1, 0), (t, 0, -1)])), (3, 3));
    }
}

#[test]
fn a_negative_r_is_4_or_5_before_18() {
    for (t, refusal) in [(5, ((4, 3), 4)), (0, ((5, 3), 1)), (1, ((18, 3), 0))] {
        let text = file(OPEN_ENDED, &[(0, 1, 0), (t, 1, -1)]);
        assert_eq!(refused_by(&text), refusal);
    }
}

#[test]
fn a_negative_r_is_4_or_5_before_8() {
    assert_eq!(
        refused(&file(SHORT, &[(0, 1_000, 0), (2_000, 1, -1)])),
        (4, 3)
    );
    assert_eq!(
        refused(&file(SHORT, &[(0, 1_000, 0), (999, 1, -1)])),
        (5, 3)
    );
    assert_eq!(
        refused(&file(SHORT, &[(0, 1_000, 0), (1_000, 1, -1)])),
        (8, 3)
    );
}

#[test]
fn a_negative_r_is_18_before_6_7_and_9() {
    let text = file(NUMBERED, &[(Tick::MAX, u32::MAX, -1)]);
    assert_eq!(read_into(0, &text), Err((18, 2)));
}

#[test]
fn a_negative_r_is_8_before_6_7_and_9() {
    let text = file(SHORT_NUMBERED, &[(Tick::MAX, 1, -1)]);
    assert_eq!(read_into(0, &text), Err((8, 2)));
    // With r of 0 the same line is 6.
    let text = file(SHORT_NUMBERED, &[(Tick::MAX, 1, 0)]);
    assert_eq!(read_into(0, &text), Err((6, 2)));
}

#[test]
fn a_negative_r_is_6_before_7_and_9() {
    let near_the_top = HeadFields {
        offset: Tick::MAX - 500,
        ..SHORT_NUMBERED
    };
    let text = file(near_the_top, &[(Tick::MAX - 500, 1, -1)]);
    assert_eq!(read_into(0, &text), Err((6, 2)));
}

#[test]
fn a_negative_r_is_7_before_9() {
    let text = file(SHORT_NUMBERED, &[(0, 1, -1)]);
    assert_eq!(read_into(0, &text), Err((7, 2)));
    assert_eq!(read_into(0, &file(SHORT, &[(0, 1, -1)])), Err((9, 2)));
}

#[test]
fn a_negative_r_has_its_count_judged_uncapped() {
    // 10^11 ms at 10^7 ticks a second are 10^15 ticks: a count that passes 32 bits.
    let long = HeadFields {
        timescale: 10_000_000,
        duration: Millis::MAX,
        ..OPEN_ENDED
    };
    assert_eq!(refused(&file(long, &[(0, 1, -1)])), (7, 2));
    // One less than a multiple of 2^32 below the top: 6, though few would fit.
    let high = HeadFields {
        offset: Tick::MAX - (1 << 32),
        ..long
    };
    assert_eq!(
        refused(&file(high, &[(Tick::MAX - (1 << 32), 1, -1)])),
        (6, 2)
    );
}

#[test]
fn the_first_refused_line_decides() {
    let bad_head = HeadFields {
        depth: Millis::MAX + 1,
        ..SHORT
    };
    assert_eq!(refused(&head_line(bad_head)), (1, 1));
    assert_eq!(refused(&file(SHORT, &[(0, 0, 0), (7, 0, 0)])), (3, 2));
    let unended = file(SHORT, &[(0, 0, 0)]);
    assert_eq!(refused(unended.trim_end()), (3, 2));
}
