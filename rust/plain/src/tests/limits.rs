//! Each limit, and the first value past it.

use super::support::*;
use crate::units::{Millis, Tick, Timescale};
use crate::window::HeadFields;

/// References that end at or before tick 2^40 end before the period start and are spent at once.
const LATE_OFFSET: HeadFields = HeadFields {
    offset: 1 << 40,
    ..OPEN_ENDED
};

#[test]
fn numbers_of_the_limits() {
    assert_eq!(Tick::MAX, 4_503_599_627_370_495);
    assert_eq!(Millis::MAX, 100_000_000_000);
    assert_eq!(Timescale::MAX, 10_000_000);
}

#[test]
fn open_takes_every_limit_at_once() {
    let head = HeadFields {
        timescale: u64::from(Timescale::MAX),
        offset: Tick::MAX,
        start: Millis::MAX,
        duration: Millis::MAX,
        depth: Millis::MAX,
        first_number: u32::MAX,
        update: Millis::MAX,
    };
    let mut lent = Lent::opened(head, Tick::MAX, 30);
    assert_eq!(lent.trim(Millis::MAX), 0);
    // The update period alone fills the whole period.
    let ticks = 1_000_000_000_000_000;
    let lacking = Ok([2, ticks, 0, Tick::MAX, 0]);
    assert_eq!(lent.verdict(Millis::MAX), lacking);
    assert_eq!(lent.verdict_whole(), lacking);
    let none = HeadFields { update: 0, ..head };
    let lent = Lent::opened(none, Tick::MAX, 30);
    assert_eq!(lent.verdict(Millis::MAX), Ok([0; 5]));
}

#[test]
fn clock_plus_update_period_is_not_cut() {
    let head = HeadFields {
        update: Millis::MAX,
        ..OPEN_ENDED
    };
    let lent = Lent::opened(head, 0, 30);
    let twice = 2 * Millis::MAX;
    assert_eq!(lent.verdict(Millis::MAX), Ok([2, twice, 0, 0, 0]));
    assert_eq!(lent.verdict(Millis::MAX + 1), Err(10));
    assert_eq!(lent.covered_edge(), Ok([0, 0]));
    // All of it in one reference: the greatest clock of all is covered.
    let wide = HeadFields {
        timescale: 10,
        ..head
    };
    let mut lent = Lent::opened(wide, 0, 30);
    assert_eq!(lent.join(2_000_000_000, 1), 0);
    let ticks = 2_000_000_000;
    assert_eq!(lent.verdict(Millis::MAX), Ok([1, ticks, ticks, 0, 100]));
    assert_eq!(lent.covered_edge(), Ok([1, Millis::MAX]));
}

#[test]
fn an_update_period_past_a_known_end() {
    // A period of 1,000 ms; the window ends with it however far the update period reaches.
    for update in [500, 501, Millis::MAX] {
        let head = HeadFields { update, ..SHORT };
        let mut lent = Lent::opened(head, 0, 30);
        assert_eq!(lent.join(999, 1), 0);
        assert_eq!(lent.verdict(500), Ok([2, 1_000, 999, 999, 99]));
        assert_eq!(lent.covered_edge(), Ok(edge_before(999, update)));
        assert_eq!(lent.join(5, 1), 0);
        assert_eq!(lent.verdict(500), Ok([1, 1_000, 1_000, 0, 100]));
        assert_eq!(lent.covered_edge(), Ok([1, Millis::MAX]));
    }
}

/// The covered edge where the next tick stands at so many milliseconds, before the period end.
fn edge_before(millis: u64, update: u64) -> [u64; 2] {
    millis.checked_sub(update).map_or([0, 0], |edge| [1, edge])
}

#[test]
fn needed_ticks_may_lie_above_the_limit() {
    let head = HeadFields {
        offset: Tick::MAX - 1,
        duration: 3,
        ..OPEN_ENDED
    };
    let mut lent = Lent::opened(head, Tick::MAX - 1, 30);
    assert_eq!(lent.join(1, 1), 0);
    assert_eq!(lent.verdict_whole(), Ok([2, 3, 1, Tick::MAX, 33]));
}

#[test]
fn an_end_at_the_limit_and_past_it() {
    let opened = Lent::opened(OPEN_ENDED, Tick::MAX - 10, 30);
    assert_eq!(opened.clone().join(10, 1), 0);
    assert_eq!(opened.clone().join(5, 2), 0);
    assert_eq!(opened.clone().join(11, 1), 6);
    assert_eq!(opened.clone().join(1, 10), 0);
    assert_eq!(opened.clone().join(1, 11), 6);
}

#[test]
fn an_end_does_not_wrap() {
    // 2^52 - 1 + (2^32 - 1)^2 lies past 2^64.
    for first_tick in [0, Tick::MAX / 2, Tick::MAX] {
        let mut lent = Lent::opened(OPEN_ENDED, first_tick, 30);
        assert_eq!(lent.join(u32::MAX, u32::MAX), 6);
        assert_eq!(lent.join(1 << 31, 1 << 31), 6);
    }
    // This end would wrap to a small number.
    let mut lent = Lent::opened(OPEN_ENDED, Tick::MAX, 30);
    let wrapped = Tick::MAX.wrapping_add(u64::from(u32::MAX) * u64::from(u32::MAX));
    assert!(wrapped < Tick::MAX);
    assert_eq!(lent.append(Tick::MAX, u32::MAX, u32::MAX), 6);
}

#[test]
fn a_start_over_the_limit_is_4() {
    let mut lent = Lent::opened(OPEN_ENDED, Tick::MAX, 30);
    assert_eq!(lent.append_by(Tick::MAX + 1, 1, 1), (4, 1));
    assert_eq!(
        lent.append_by(u64::MAX, 1, 1),
        (4, 18_442_240_474_082_181_120)
    );
}

#[test]
fn distances_of_full_ticks_are_not_cut() {
    let opened = Lent::opened(OPEN_ENDED, 0, 30);
    let mut one = opened.clone();
    assert_eq!(one.append_by(0, 1, 1), (0, 0));
    assert_eq!(
        one.append_by(u64::MAX - 1, 1, 1),
        (4, 18_446_744_073_709_551_613)
    );
    for distance in [1, 1 << 31, 1 << 32, 1 << 52, 1 << 63, u64::MAX] {
        assert_eq!(opened.clone().append_by(distance, 1, 1), (4, distance));
    }
    let mut top = Lent::opened(OPEN_ENDED, Tick::MAX, 30);
    for distance in [1, 1 << 31, 1 << 32, Tick::MAX] {
        assert_eq!(top.append_by(Tick::MAX - distance, 1, 1), (5, distance));
    }
}

#[test]
fn a_full_tick_and_its_stamp_tell_the_same_within_half_a_circle() {
    const HALF: u64 = 1 << 31;
    for next_tick in [HALF, 1 << 32, (1 << 40) + 12_345, Tick::MAX] {
        let mut lent = Lent::opened(OPEN_ENDED, next_tick, 30);
        for start in [
            next_tick - HALF,
            next_tick - HALF + 1,
            next_tick - 1,
            next_tick + 1,
            next_tick + HALF - 1,
        ] {
            let by_tick = lent.append_by(start, 1, 1);
            assert_eq!(lent.append_stamp_by(start as u32, 1, 1), by_tick);
        }
        // Half a circle after the next tick a stamp lies before it.
        assert_eq!(lent.append_by(next_tick + HALF, 1, 1), (4, HALF));
        let stamp = (next_tick + HALF) as u32;
        assert_eq!(lent.append_stamp_by(stamp, 1, 1), (5, HALF));
    }
}

#[test]
fn the_half_circle_of_a_stamp() {
    // With the next tick at 0 an overlap names no tick at all, and has its distance all the same.
    for next_tick in [0, 7, 1 << 31, (1 << 32) - 1, 1 << 32, Tick::MAX] {
        let mut lent = Lent::opened(OPEN_ENDED, next_tick, 30);
        for (step, answer) in [
            (1, (4, 1)),
            ((1 << 31) - 1, (4, (1 << 31) - 1)),
            (1 << 31, (5, 1 << 31)),
            ((1 << 31) + 1, (5, (1 << 31) - 1)),
            ((1 << 32) - 1, (5, 1)),
        ] {
            let stamp = (next_tick + step) as u32;
            assert_eq!(lent.append_stamp_by(stamp, 1, 1), answer);
        }
        assert_eq!(lent.append_stamp_by(next_tick as u32, 0, 1), (3, 0));
    }
}

#[test]
fn two_to_the_31_accepted_and_one_more() {
    let mut lent = Lent::opened(LATE_OFFSET, 0, 0);
    assert_eq!(lent.join(1, (1 << 31) + 1), 7);
    assert_eq!(lent.join(1, 1 << 31), 0);
    assert_eq!(lent.record[ACCEPTED], 1 << 31);
    assert_eq!(lent.record[DROPPED], 1 << 31);
    assert_eq!(lent.record[NEXT_TICK], 1 << 31);
    assert_eq!(lent.join(1, 1), 7);
}

#[test]
fn the_last_number_and_one_more() {
    let head = HeadFields {
        first_number: u32::MAX - 5,
        ..OPEN_ENDED
    };
    let mut lent = Lent::opened(head, 0, 30);
    assert_eq!(lent.join(1, 6), 7);
    assert_eq!(lent.join(1, 5), 0);
    assert_eq!(lent.join(1, 1), 7);
    assert!(lent.availability(u64::from(u32::MAX) - 1).is_ok());
    assert_eq!(lent.availability(u32::MAX.into()), Err(13));
}

#[test]
fn both_totals_at_their_limits() {
    let head = HeadFields {
        first_number: (1 << 31) - 1,
        ..LATE_OFFSET
    };
    assert_eq!(Lent::opened(head, 0, 0).join(1, 1 << 31), 0);
    let head = HeadFields {
        first_number: 1 << 31,
        ..LATE_OFFSET
    };
    assert_eq!(Lent::opened(head, 0, 0).join(1, 1 << 31), 7);
}

#[test]
fn a_long_append_of_which_few_are_kept() {
    let head = HeadFields {
        offset: (1 << 31) - 3,
        ..OPEN_ENDED
    };
    let mut lent = Lent::opened(head, 0, 3);
    assert_eq!(lent.join(1, 1 << 31), 0);
    assert_eq!(lent.record[DROPPED], (1 << 31) - 3);
    assert_eq!(lent.table, [(1 << 31) - 3, 1, 3]);
}

#[test]
fn a_start_just_before_and_at_the_period_end() {
    // Timescale 3: 1,000 ms are 3 ticks, 1,001 ms are 3.003 ticks.
    let even = HeadFields {
        duration: 1_000,
        ..CASE_D
    };
    let uneven = HeadFields {
        duration: 1_001,
        ..CASE_D
    };
    assert_eq!(Lent::opened(even, 0, 30).join(1, 3), 0);
    assert_eq!(Lent::opened(even, 0, 30).join(1, 4), 8);
    assert_eq!(Lent::opened(uneven, 0, 30).join(1, 4), 0);
    assert_eq!(Lent::opened(uneven, 0, 30).join(1, 5), 8);
    assert_eq!(Lent::opened(even, 3, 30).join(1, 1), 8);
    assert_eq!(Lent::opened(uneven, 3, 30).join(1, 1), 0);
}

#[test]
fn opening_past_the_period_end_is_accepted() {
    let mut lent = Lent::opened(CASE_D, Tick::MAX, 30);
    assert_eq!(lent.trim(1), 0);
    assert_eq!(lent.verdict_whole(), Ok([2, 2, 0, 0, 0]));
}

#[test]
fn capacity_is_the_words_divided_by_3() {
    for (words, runs) in [(0, 0), (1, 0), (2, 0), (3, 1), (5, 1), (6, 2), (8, 2)] {
        let mut lent = Lent::opened(OPEN_ENDED, 0, words);
        for duration in 1..=runs {
            assert_eq!(lent.join(duration, 2), 0);
        }
        assert_eq!(lent.join(runs + 1, 1), 9);
        if runs > 0 {
            assert_eq!(lent.join(runs, 1), 0);
        }
    }
}

#[test]
fn a_full_table_takes_what_is_spent_at_once() {
    // The period is over for a window of 10 ms at clock 2,000: all is spent at once.
    let head = HeadFields { depth: 10, ..SHORT };
    let mut lent = Lent::opened(head, 0, 0);
    assert_eq!(lent.join(7, 1), 9);
    assert_eq!(lent.trim(2_000), 0);
    assert_eq!(lent.join(7, 3), 0);
    assert_eq!(lent.record[ACCEPTED], 3);
    assert_eq!(lent.record[DROPPED], 3);
    assert_eq!(lent.record[NEXT_TICK], 21);
}

#[test]
fn the_last_clock() {
    let mut lent = Lent::opened(OPEN_ENDED, 0, 30);
    assert_eq!(lent.join(5, 1), 0);
    assert_eq!(lent.verdict(Millis::MAX), Ok([2, Millis::MAX, 5, 5, 0]));
    assert_eq!(lent.available_at(0, Millis::MAX), Ok(true));
    assert_eq!(lent.trim(Millis::MAX), 0);
    assert_eq!(lent.trim(Millis::MAX + 1), 10);
    assert_eq!(lent.trim(u64::MAX), 10);
    assert_eq!(lent.verdict(Millis::MAX + 1), Err(10));
    assert_eq!(lent.verdict(u64::MAX), Err(10));
}

#[test]
fn milliseconds_above_the_last_clock_count_for_spent() {
    // The reference begins after the last clock, so it is needed at no clock that can be given,
    // and is kept all the same.
    let head = HeadFields {
        start: Millis::MAX,
        depth: 1,
        ..OPEN_ENDED
    };
    let mut lent = Lent::opened(head, 10, 30);
    assert_eq!(lent.join(1, 1), 0);
    assert_eq!(lent.trim(Millis::MAX), 0);
    assert_eq!(lent.record[DROPPED], 0);
    assert_eq!(lent.verdict(Millis::MAX), Ok([0; 5]));
}

#[test]
fn availability_at_the_far_ends() {
    let early = HeadFields {
        offset: Tick::MAX,
        ..OPEN_ENDED
    };
    let late = HeadFields {
        timescale: 10_000_000,
        start: Millis::MAX,
        depth: Millis::MAX,
        ..OPEN_ENDED
    };
    // With the offset above all its ticks a reference is spent at once and bears no number.
    let mut lent = Lent::opened(early, 0, 30);
    assert_eq!(lent.join(1, 1), 0);
    assert_eq!(lent.availability(0), Err(13));
    let duration = u64::from(u32::MAX);
    let mut lent = Lent::opened(late, Tick::MAX - duration, 30);
    assert_eq!(lent.join(u32::MAX, 1), 0);
    let start = 1_000_000_000_000_000_000 + Tick::MAX as i64 * 1000;
    let end = start + 1_000_000_000_000_000_000 + i64::from(u32::MAX) * 1000;
    assert_eq!(lent.availability(0), Ok([1, start, end]));
}

#[test]
fn the_greatest_duration() {
    let mut lent = Lent::opened(OPEN_ENDED, 0, 30);
    assert_eq!(lent.join(u32::MAX, 2), 0);
    assert_eq!(lent.record[NEXT_TICK], 2 * u64::from(u32::MAX));
    assert_eq!(lent.table[..3], [0, u64::from(u32::MAX), 2]);
}
