//! Agreement of record and table, with damaged words.

use super::by_hand::case_b;
use super::literal::Literal;
use super::sequences::random_states;
use super::support::*;
use crate::record::{decode, RECORD_WORDS};
use crate::units::{Millis, Tick};
use crate::window::HeadFields;

fn agrees(lent: &Lent) -> bool {
    decode(&lent.record, &lent.table).is_ok()
}

/// Asserts that the memory agrees before a change of its words and disagrees after it.
fn disagrees_after(lent: &Lent, damage: impl FnOnce(&mut Lent)) {
    let mut damaged = lent.clone();
    assert!(agrees(&damaged));
    damage(&mut damaged);
    assert!(!agrees(&damaged), "{:?}", damaged);
    assert_eq!(damaged.trim(0), 2);
}

/// Three runs, from 100 to 130, 150 and 160, in a table of 11 words.
fn three_runs() -> Lent {
    let mut lent = Lent::opened(OPEN_ENDED, 100, 11);
    for (duration, count) in [(10, 3), (20, 1), (5, 2)] {
        assert_eq!(lent.join(duration, count), 0);
    }
    lent
}

#[test]
fn head_words_over_their_limits() {
    let lent = three_runs();
    for (word, values) in [
        (TIMESCALE, vec![0, 10_000_001, 1 << 32, (1 << 32) + 1000]),
        (OFFSET, vec![Tick::MAX + 1, u64::MAX]),
        (START, vec![Millis::MAX + 1, u64::MAX]),
        (DURATION, vec![Millis::MAX + 1, u64::MAX]),
        (DEPTH, vec![Millis::MAX + 1, u64::MAX]),
        (FIRST_NUMBER, vec![1 << 32, u64::MAX]),
        (UPDATE, vec![Millis::MAX + 1, 1 << 63, u64::MAX]),
        (GREATEST_CLOCK, vec![Millis::MAX + 1, u64::MAX]),
    ] {
        for value in values {
            disagrees_after(&lent, |lent| lent.record[word] = value);
        }
    }
}

#[test]
fn any_update_period_within_its_limit() {
    let mut lent = case_b();
    assert_eq!(lent.trim(13_999), 0);
    for update in [0, 1, 2_000, Millis::MAX - 1, Millis::MAX] {
        lent.record[UPDATE] = update;
        assert!(agrees(&lent));
    }
}

#[test]
fn counts_that_do_not_add_up() {
    let lent = three_runs();
    disagrees_after(&lent, |lent| lent.record[ACCEPTED] = 5);
    disagrees_after(&lent, |lent| lent.record[ACCEPTED] = 7);
    disagrees_after(&lent, |lent| lent.record[DROPPED] = 1);
    disagrees_after(&lent, |lent| lent.record[DROPPED] = u64::MAX);
    // Dropped over accepted, with a difference that would wrap to the total.
    disagrees_after(&lent, |lent| {
        lent.record[ACCEPTED] = 5;
        lent.record[DROPPED] = u64::MAX;
    });
    let mut shifted = lent;
    shifted.record[ACCEPTED] += 100;
    shifted.record[DROPPED] += 100;
    assert!(agrees(&shifted));
}

#[test]
fn the_limits_of_refusal_7() {
    let mut lent = Lent::opened(OPEN_ENDED, 0, 30);
    lent.record[ACCEPTED] = 1 << 31;
    lent.record[DROPPED] = 1 << 31;
    assert!(agrees(&lent));
    disagrees_after(&lent, |lent| {
        lent.record[ACCEPTED] += 1;
        lent.record[DROPPED] += 1;
    });
    lent.record[FIRST_NUMBER] = (1 << 31) - 1;
    assert!(agrees(&lent));
    disagrees_after(&lent, |lent| lent.record[FIRST_NUMBER] += 1);
    lent.record[ACCEPTED] = 0;
    lent.record[DROPPED] = 0;
    lent.record[FIRST_NUMBER] = u64::from(u32::MAX);
    assert!(agrees(&lent));
    disagrees_after(&lent, |lent| {
        lent.record[ACCEPTED] = u64::MAX;
        lent.record[DROPPED] = u64::MAX;
    });
}

#[test]
fn the_next_tick() {
    let lent = three_runs();
    disagrees_after(&lent, |lent| lent.record[NEXT_TICK] += 1);
    disagrees_after(&lent, |lent| lent.record[NEXT_TICK] -= 1);
    disagrees_after(&lent, |lent| lent.record[NEXT_TICK] = u64::MAX);
    // With no used run it is free within its limit.
    let mut empty = Lent::opened(OPEN_ENDED, 0, 30);
    for next_tick in [1, 77, Tick::MAX] {
        empty.record[NEXT_TICK] = next_tick;
        assert!(agrees(&empty));
    }
    disagrees_after(&empty, |lent| lent.record[NEXT_TICK] = Tick::MAX + 1);
}

#[test]
fn runs_used() {
    let lent = three_runs();
    for used in [0, 1, 2, 4, 5, 1 << 32, u64::MAX, u64::MAX / 3 + 1] {
        disagrees_after(&lent, |lent| lent.record[RUNS_USED] = used);
    }
}

#[test]
fn words_after_the_used_runs() {
    let lent = three_runs();
    for word in [9, 10] {
        disagrees_after(&lent, |lent| lent.table[word] = 1);
    }
    for words in [1, 2, 4] {
        let lent = Lent::opened(OPEN_ENDED, 0, words);
        for word in 0..words {
            disagrees_after(&lent, |lent| lent.table[word] = u64::MAX);
        }
    }
}

#[test]
fn runs_that_do_not_join_or_do_not_differ() {
    let lent = three_runs();
    for word in 0..9 {
        disagrees_after(&lent, |lent| lent.table[word] += 1);
        disagrees_after(&lent, |lent| lent.table[word] -= 1);
    }
    let mut one = Lent::opened(OPEN_ENDED, 100, 11);
    assert_eq!(one.join(10, 3), 0);
    disagrees_after(&one, |lent| {
        lent.table[..6].copy_from_slice(&[100, 10, 2, 120, 10, 1]);
        lent.record[RUNS_USED] = 2;
    });
}

#[test]
fn a_run_with_count_0() {
    let lent = three_runs();
    disagrees_after(&lent, |lent| {
        lent.table[..9].copy_from_slice(&[100, 10, 3, 130, 7, 0, 130, 15, 2]);
        lent.record[ACCEPTED] = 5;
    });
    disagrees_after(&Lent::opened(OPEN_ENDED, 0, 30), |lent| {
        lent.table[1] = 4;
        lent.record[RUNS_USED] = 1;
    });
    disagrees_after(&Lent::opened(OPEN_ENDED, 0, 30), |lent| {
        lent.record[RUNS_USED] = 1
    });
}

#[test]
fn a_run_with_duration_0_or_over_32_bits() {
    let lent = Lent::opened(OPEN_ENDED, 0, 30);
    disagrees_after(&lent, |lent| {
        lent.table[2] = 1;
        lent.record[RUNS_USED] = 1;
        lent.record[ACCEPTED] = 1;
    });
    let mut longest = Lent::opened(OPEN_ENDED, 0, 30);
    assert_eq!(longest.join(u32::MAX, 1), 0);
    disagrees_after(&longest, |lent| {
        lent.table[1] += 1;
        lent.record[NEXT_TICK] += 1;
    });
}

#[test]
fn ends_and_totals_that_would_wrap() {
    let mut lent = Lent::opened(OPEN_ENDED, 0, 30);
    assert_eq!(lent.join(2, 1), 0);
    // 2 x (2^63 + 1) is 2 modulo 2^64.
    disagrees_after(&lent, |lent| lent.table[2] = (1 << 63) + 1);
    disagrees_after(&lent, |lent| {
        lent.table[2] = (1 << 63) + 1;
        lent.record[ACCEPTED] = (1 << 63) + 1;
    });
    disagrees_after(&lent, |lent| {
        lent.table[..3].copy_from_slice(&[u64::MAX - 1, 4, 1]);
    });
    // Counts whose sum is 1 modulo 2^64.
    disagrees_after(&lent, |lent| {
        lent.table[..6].copy_from_slice(&[0, 2, u64::MAX, 2, 1, 2]);
        lent.record[RUNS_USED] = 2;
    });
    disagrees_after(&lent, |lent| {
        lent.table[..3].copy_from_slice(&[u64::MAX; 3]);
    });
}

#[test]
fn an_end_over_the_limit() {
    let mut lent = Lent::opened(OPEN_ENDED, Tick::MAX - 4, 30);
    assert_eq!(lent.join(2, 2), 0);
    assert!(agrees(&lent));
    disagrees_after(&lent, |lent| {
        lent.table[0] += 1;
        lent.record[NEXT_TICK] += 1;
    });
}

#[test]
fn a_reference_spent_at_the_greatest_clock() {
    let mut lent = case_b();
    assert_eq!(lent.trim(13_999), 0);
    disagrees_after(&lent, |lent| lent.record[GREATEST_CLOCK] = 14_000);
    disagrees_after(&lent, |lent| lent.record[GREATEST_CLOCK] = Millis::MAX);
    // Ending at the period start, at clock 0.
    let head = HeadFields {
        offset: 9,
        ..OPEN_ENDED
    };
    let mut lent = Lent::opened(head, 0, 30);
    assert_eq!(lent.join(10, 1), 0);
    assert_eq!(lent.record[RUNS_USED], 1);
    disagrees_after(&lent, |lent| lent.record[OFFSET] = 10);
}

#[test]
fn a_reference_that_starts_at_the_period_end() {
    // Of one run of five, the last starts at 40.
    let head = HeadFields {
        duration: 41,
        ..OPEN_ENDED
    };
    let mut lent = Lent::opened(head, 0, 30);
    assert_eq!(lent.join(10, 5), 0);
    disagrees_after(&lent, |lent| lent.record[DURATION] = 40);
    disagrees_after(&lent, |lent| lent.record[DURATION] = 1);
    lent.record[DURATION] = 0;
    assert!(agrees(&lent));
}

/// Every condition of agreement by enumeration, over wide words.
fn agrees_literally(lent: &Lent) -> bool {
    let wide = |words: &[u64]| -> Vec<i128> { words.iter().copied().map(i128::from).collect() };
    let (record, table) = (wide(&lent.record), wide(&lent.table));
    if !limits_held(&record) || record[RUNS_USED] > (table.len() / 3) as i128 {
        return false;
    }
    let (used, unused) = table.split_at(record[RUNS_USED] as usize * 3);
    let runs: Vec<&[i128]> = used.chunks(3).collect();
    unused.iter().all(|word| *word == 0)
        && counts_agree(&record, &runs)
        && runs_join(&record, &runs)
        && references_agree(&record, &runs)
}

const MOST_TICK: i128 = (1 << 52) - 1;

fn limits_held(record: &[i128]) -> bool {
    let most_millis = 100_000_000_000;
    (1..=10_000_000).contains(&record[TIMESCALE])
        && record[OFFSET] <= MOST_TICK
        && record[NEXT_TICK] <= MOST_TICK
        && record[START] <= most_millis
        && record[DURATION] <= most_millis
        && record[DEPTH] <= most_millis
        && record[UPDATE] <= most_millis
        && record[GREATEST_CLOCK] <= most_millis
        && record[FIRST_NUMBER] < 1 << 32
        && record[ACCEPTED] <= 1 << 31
        && record[FIRST_NUMBER] + record[ACCEPTED] < 1 << 32
}

/// Counts that are too large to enumerate cannot add up to the small totals of these tests, so
/// they disagree.
fn counts_agree(record: &[i128], runs: &[&[i128]]) -> bool {
    let total: i128 = runs.iter().map(|run| run[2]).sum();
    record[DROPPED] <= record[ACCEPTED]
        && total == record[ACCEPTED] - record[DROPPED]
        && runs.iter().all(|run| (1..=100_000).contains(&run[2]))
}

fn runs_join(record: &[i128], runs: &[&[i128]]) -> bool {
    let end = |run: &[i128]| run[0] + run[1] * run[2];
    let joins = |pair: &[&[i128]]| end(pair[0]) == pair[1][0] && pair[0][1] != pair[1][1];
    runs.iter().all(|run| (1..1 << 32).contains(&run[1]))
        && runs.windows(2).all(joins)
        && runs
            .last()
            .map_or(true, |run| end(run) == record[NEXT_TICK])
}

fn references_agree(record: &[i128], runs: &[&[i128]]) -> bool {
    let literal = Literal {
        timescale: record[TIMESCALE],
        offset: record[OFFSET],
        start: record[START],
        duration: record[DURATION],
        depth: record[DEPTH],
        first_number: record[FIRST_NUMBER],
        update: record[UPDATE],
    };
    let starts_past = |start: i128| match literal.period_end() {
        Some(end) => literal.place(start) >= end,
        None => false,
    };
    runs.iter().all(|run| {
        let starts = (0..run[2]).map(|index| run[0] + index * run[1]);
        starts.map(|start| (start, start + run[1])).all(|one| {
            one.1 <= MOST_TICK && !starts_past(one.0) && !literal.spent(one, record[GREATEST_CLOCK])
        })
    })
}

/// A word near the one that stands there, or far from it.
fn damaged_word(generator: &mut Generator, word: u64) -> u64 {
    match generator.below(9) {
        0 => 0,
        1 => u64::MAX,
        2 => generator.next(),
        3 => word.wrapping_add(1 << 32),
        4 => generator.below(400),
        5 | 6 => word.wrapping_add(1),
        _ => word.wrapping_sub(1),
    }
}

/// Small enough for the search through milliseconds, or over a limit and so never searched.
fn small_enough(record: &[u64]) -> bool {
    let millis_small = [START, DEPTH, GREATEST_CLOCK]
        .iter()
        .all(|word| record[*word] < 100_000 || record[*word] > Millis::MAX);
    let ticks = i128::from(record[NEXT_TICK]) - i128::from(record[OFFSET]);
    let next_tick_millis = ticks * 1000 / i128::from(record[TIMESCALE].max(1));
    millis_small && next_tick_millis < 100_000
}

/// The memory with one word or two changed.
fn damaged(generator: &mut Generator, lent: &Lent) -> Lent {
    let mut damaged = lent.clone();
    for _ in 0..generator.between(1, 2) {
        let at = generator.below((RECORD_WORDS + damaged.table.len()) as u64) as usize;
        let word = match at.checked_sub(RECORD_WORDS) {
            None => &mut damaged.record[at],
            Some(at) => &mut damaged.table[at],
        };
        *word = damaged_word(generator, *word);
    }
    damaged
}

#[test]
fn damaged_words_against_enumeration() {
    let (mut agreeing, mut disagreeing) = (0, 0);
    for (mut generator, _, lent) in random_states(950_000, 1_500) {
        assert!(agrees(&lent) && agrees_literally(&lent));
        for _ in 0..6 {
            let damaged = damaged(&mut generator, &lent);
            if !small_enough(&damaged.record) {
                continue;
            }
            let expected = agrees_literally(&damaged);
            assert_eq!(agrees(&damaged), expected, "{:?}", damaged);
            agreeing += usize::from(expected);
            disagreeing += usize::from(!expected);
        }
    }
    assert!(agreeing > 500 && disagreeing > 500);
}

#[test]
fn words_of_pure_chance_disagree() {
    let mut generator = Generator::new(2);
    for _ in 0..2_000 {
        let words = generator.below(20) as usize;
        let mut lent = Lent {
            record: (0..RECORD_WORDS).map(|_| generator.next()).collect(),
            table: (0..words).map(|_| generator.next()).collect(),
        };
        assert_eq!(lent.join(1, 1), 2);
        assert_eq!(lent.verdict(0), Err(2));
        assert_eq!(lent.write(), Err(2));
    }
}
