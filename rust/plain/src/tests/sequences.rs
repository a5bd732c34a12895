//! Random small sequences of calls, held against a model that has nothing but the definitions:
//! all references ever accepted, the greatest clock, and search and enumeration over them.

use super::literal::{Literal, Ticks};
use super::support::*;
use crate::units::{Millis, Tick};
use crate::window::HeadFields;

/// The tick near which a head of [`random_head`] has its period.
pub fn tick_base(head: HeadFields) -> u64 {
    head.offset.saturating_sub(40)
}

/// A head whose period, ticks and clocks are small enough to enumerate, its ticks standing low,
/// about 2^32, or near the limit.
pub fn random_head(generator: &mut Generator) -> HeadFields {
    let base = generator.pick(&[0, 0, (1 << 32) - 60, Tick::MAX - 150]);
    HeadFields {
        timescale: generator.pick(&[7, 40, 90, 100, 300, 999, 1000, 1001, 3000]),
        offset: base + generator.below(80),
        start: generator.pick(&[0, 1, 100, 333]),
        duration: generator.pick(&[0, 0, 1, 33, 150, 301, 700]),
        depth: generator.pick(&[0, 0, 1, 20, 77, 200]),
        first_number: generator.pick(&[0, 1, 1000, u32::MAX - 12]),
        update: generator.pick(&[0, 0, 1, 15, 90, 333, 1_000]),
    }
}

/// Memory after an opening and some accepted calls.
pub fn random_state(generator: &mut Generator, head: HeadFields) -> Lent {
    let first_tick = tick_base(head) + generator.below(70);
    let words = generator.pick(&[0, 2, 3, 7, 9, 14, 30]);
    let mut lent = Lent::opened(head, first_tick, words);
    for _ in 0..generator.below(6) {
        if generator.one_in(4) {
            lent.trim(generator.below(900));
        } else {
            lent.join(
                generator.between(1, 12) as u32,
                generator.between(1, 4) as u32,
            );
        }
    }
    lent
}

/// Random states, each with its head and with the generator that made it, for what comes next.
pub fn random_states(
    first_seed: u64,
    many: u64,
) -> impl Iterator<Item = (Generator, HeadFields, Lent)> {
    (first_seed..first_seed + many).map(|seed| {
        let mut generator = Generator::new(seed);
        let head = random_head(&mut generator);
        let lent = random_state(&mut generator, head);
        (generator, head, lent)
    })
}

/// The definitions alone.
#[derive(Clone)]
struct Model {
    literal: Literal,
    head: HeadFields,
    words: usize,
    /// Every reference ever accepted.
    accepted: Vec<Ticks>,
    next_tick: i128,
    greatest_clock: i128,
}

impl Model {
    fn opened(head: HeadFields, first_tick: u64, words: usize) -> Self {
        Model {
            literal: Literal::of(head),
            head,
            words,
            accepted: Vec::new(),
            next_tick: i128::from(first_tick),
            greatest_clock: 0,
        }
    }

    /// What is kept: every accepted reference that is needed at the greatest clock or at some
    /// later millisecond.
    fn kept(&self) -> Vec<Ticks> {
        self.accepted
            .iter()
            .copied()
            .filter(|reference| !self.literal.spent(*reference, self.greatest_clock))
            .collect()
    }

    fn dropped(&self) -> usize {
        self.accepted.len() - self.kept().len()
    }

    /// Runs as start, duration and count.
    fn runs(&self) -> Vec<[i128; 3]> {
        let mut runs: Vec<[i128; 3]> = Vec::new();
        for (start, end) in self.kept() {
            match runs.last_mut() {
                Some(run) if run[1] == end - start => run[2] += 1,
                _ => runs.push([start, end - start, 1]),
            }
        }
        runs
    }

    fn lent(&self) -> Lent {
        let runs = self.runs();
        let mut table: Vec<u64> = runs.iter().flatten().map(|word| *word as u64).collect();
        table.resize(self.words, 0);
        let head = self.head;
        let record = vec![
            head.timescale,
            head.offset,
            head.start,
            head.duration,
            head.depth,
            u64::from(head.first_number),
            head.update,
            self.accepted.len() as u64,
            self.dropped() as u64,
            self.next_tick as u64,
            self.greatest_clock as u64,
            runs.len() as u64,
        ];
        Lent { record, table }
    }

    fn append(&mut self, start: u64, duration: u32, count: u32) -> By {
        if duration == 0 || count == 0 {
            return (3, 0);
        }
        if i128::from(start) != self.next_tick {
            return self.off_by(i128::from(start));
        }
        let duration = i128::from(duration);
        let added: Vec<Ticks> = (0..i128::from(count))
            .map(|index| self.next_tick + index * duration)
            .map(|start| (start, start + duration))
            .collect();
        if added.iter().any(|reference| reference.1 >= 1 << 52) {
            return (6, 0);
        }
        let total = (self.accepted.len() + added.len()) as i128;
        if total > 1 << 31 || self.literal.first_number + total > (1 << 32) - 1 {
            return (7, 0);
        }
        let starts_past = |reference: &Ticks| match self.literal.period_end() {
            Some(end) => self.literal.place(reference.0) >= end,
            None => false,
        };
        if added.iter().any(starts_past) {
            return (8, 0);
        }
        let mut after = self.clone();
        after.accepted.extend(&added);
        after.next_tick = added[added.len() - 1].1;
        if after.runs().len() > self.words / 3 {
            return (9, 0);
        }
        *self = after;
        (0, 0)
    }

    fn append_stamp(&mut self, stamp: u32, duration: u32, count: u32) -> By {
        // The full ticks with this stamp, 2^32 apart: the one less than 2^31 above the next tick,
        // or at most 2^31 below it.
        let mut start = i128::from(stamp);
        while start < self.next_tick - (1 << 31) {
            start += 1 << 32;
        }
        if start < self.next_tick + (1 << 31) {
            return self.append(start as u64, duration, count);
        }
        // Only where the next tick is low: the same stamp one turn earlier, below tick 0.
        match (duration, count) {
            (0, _) | (_, 0) => (3, 0),
            _ => self.off_by(start - (1 << 32)),
        }
    }

    fn append_trim(&mut self, stamp: u32, duration: u32, count: u32, clock: u64) -> By {
        if clock > Millis::MAX {
            return (10, 0);
        }
        let answer = self.append_stamp(stamp, duration, count);
        if answer.0 == 0 {
            self.trim(clock);
        }
        answer
    }

    /// A gap or an overlap, and by how much.
    fn off_by(&self, start: i128) -> By {
        match start - self.next_tick {
            past @ 1.. => (4, past as u64),
            before => (5, -before as u64),
        }
    }

    fn trim(&mut self, clock: u64) -> u32 {
        if clock > Millis::MAX {
            return 10;
        }
        self.greatest_clock = self.greatest_clock.max(i128::from(clock));
        0
    }

    fn verdict(&self, clock: u64) -> Result<[u64; 5], u32> {
        let clock = i128::from(clock);
        if clock > i128::from(Millis::MAX) {
            Err(10)
        } else if clock < self.greatest_clock {
            Err(11)
        } else {
            let window = self.literal.window(clock);
            Ok(self.literal.verdict(&self.kept(), window))
        }
    }

    fn verdict_whole(&self) -> Result<[u64; 5], u32> {
        let window = self.literal.whole_period().ok_or(19_u32)?;
        Ok(self.literal.verdict(&self.kept(), window))
    }

    fn availability(&self, number: u32) -> Result<[i64; 3], u32> {
        let first = self.literal.first_number;
        let kept = self.kept();
        let reference = self
            .accepted
            .iter()
            .enumerate()
            .find(|(index, reference)| {
                first + *index as i128 == i128::from(number) && kept.contains(reference)
            })
            .map(|(_, reference)| *reference)
            .ok_or(13_u32)?;
        let literal = &self.literal;
        let start = literal.start * literal.timescale + (reference.1 - literal.offset) * 1000;
        let length = literal.depth * literal.timescale + (reference.1 - reference.0) * 1000;
        Ok(match literal.depth {
            0 => [0, start as i64, 0],
            _ => [1, start as i64, (start + length) as i64],
        })
    }

    fn available_at(&self, number: u32, clock: u64) -> Result<bool, u32> {
        if clock > Millis::MAX {
            return Err(10);
        }
        let point = i128::from(clock) * self.literal.timescale;
        let [ends, start, end] = self.availability(number)?;
        Ok(i128::from(start) <= point && (ends == 0 || point < i128::from(end)))
    }

    fn touching(&self, a: u64, b: u64) -> Result<[u64; 2], u32> {
        if a >= b {
            return Err(14);
        }
        let touches = |run: &[i128; 3]| {
            let mut ticks = run[0]..run[0] + run[1] * run[2];
            ticks.any(|tick| i128::from(a) <= tick && tick < i128::from(b))
        };
        let runs = self.runs();
        let touching: Vec<usize> = (0..runs.len()).filter(|at| touches(&runs[*at])).collect();
        Ok(match (touching.first(), touching.last()) {
            (Some(first), Some(last)) => [*first as u64 * 3, *last as u64 * 3 + 3],
            _ => [0, 0],
        })
    }

    fn write(&self) -> Result<Vec<u8>, u32> {
        let runs = self.runs();
        if runs.is_empty() {
            return Err(12);
        }
        let head = HeadFields {
            first_number: self.head.first_number + self.dropped() as u32,
            ..self.head
        };
        let lines: Vec<(u64, u32, i32)> = runs
            .iter()
            .enumerate()
            .map(|(at, run)| {
                let t = if at == 0 { run[0] as u64 } else { ABSENT };
                (t, run[1] as u32, run[2] as i32 - 1)
            })
            .collect();
        Ok(file(head, &lines).into_bytes())
    }
}

/// A clock that is small, rarely one near or over the limit.
fn random_clock(generator: &mut Generator) -> u64 {
    match generator.below(40) {
        0 => Millis::MAX + 1,
        1 => u64::MAX,
        _ => generator.below(1_100),
    }
}

/// One random call on both, and both answers compared.
fn call(generator: &mut Generator, lent: &mut Lent, model: &mut Model) {
    match generator.below(12) {
        0..=5 => append(generator, lent, model),
        6 => {
            let clock = random_clock(generator);
            assert_eq!(lent.trim(clock), model.trim(clock));
        }
        7 => {
            let clock = random_clock(generator);
            assert_eq!(lent.verdict(clock), model.verdict(clock));
        }
        8 => assert_eq!(lent.verdict_whole(), model.verdict_whole()),
        9 => availability(generator, lent, model),
        10 => {
            let a = lent.record[NEXT_TICK].saturating_sub(generator.below(80));
            let b = a + generator.below(60);
            assert_eq!(lent.touching(a, b), model.touching(a, b));
        }
        _ => assert_eq!(lent.write(), model.write()),
    }
}

/// An append to both, by full tick, by stamp, or by stamp with a trim: most join.
fn append(generator: &mut Generator, lent: &mut Lent, model: &mut Model) {
    let next_tick = lent.record[NEXT_TICK];
    let start = match generator.below(12) {
        0 => next_tick + 1,
        1 => next_tick.saturating_sub(1),
        2 => generator.next(),
        3 => next_tick.wrapping_add(1 << 31),
        4 => next_tick.wrapping_add((1 << 31) - 1),
        _ => next_tick,
    };
    let duration = generator.pick(&[0, 1, 1, 2, 5, 5, 5, 9, 12, 40]);
    let count = generator.pick(&[0, 1, 1, 1, 2, 3, 4]);
    let stamp = start as u32;
    match generator.below(3) {
        0 => {
            let expected = model.append_stamp(stamp, duration, count);
            assert_eq!(lent.append_stamp_by(stamp, duration, count), expected);
        }
        1 => {
            let clock = random_clock(generator);
            let expected = model.append_trim(stamp, duration, count, clock);
            assert_eq!(lent.append_trim_by(stamp, duration, count, clock), expected);
        }
        _ => {
            let expected = model.append(start, duration, count);
            assert_eq!(lent.append_by(start, duration, count), expected);
        }
    }
}

/// The availability of a number, most often one that was accepted, and whether it is available.
fn availability(generator: &mut Generator, lent: &Lent, model: &Model) {
    let number = match generator.below(4) {
        0 => generator.next() as u32,
        _ => lent.record[FIRST_NUMBER] as u32 + generator.below(12) as u32,
    };
    assert_eq!(lent.availability(number.into()), model.availability(number));
    let clock = random_clock(generator);
    let expected = model.available_at(number, clock);
    assert_eq!(lent.available_at(number.into(), clock), expected);
}

#[test]
fn random_sequences_against_the_definitions() {
    for seed in 0..1_500 {
        let mut generator = Generator::new(seed);
        let head = random_head(&mut generator);
        let first_tick = tick_base(head) + generator.below(70);
        let words = generator.pick(&[0, 1, 3, 4, 6, 8, 9, 15, 30]);
        let mut lent = Lent::opened(head, first_tick, words);
        let mut model = Model::opened(head, first_tick, words);
        for _ in 0..generator.between(1, 25) {
            call(&mut generator, &mut lent, &mut model);
            assert_eq!(lent, model.lent(), "seed {}", seed);
        }
    }
}

#[test]
fn after_each_trim_what_is_kept_is_needed_and_what_is_dropped_is_not() {
    for (mut generator, head, mut lent) in random_states(100_000, 400) {
        let literal = Literal::of(head);
        for _ in 0..5 {
            let before = lent.kept();
            assert_eq!(lent.trim(generator.below(1_100)), 0);
            let clock = i128::from(lent.record[GREATEST_CLOCK]);
            let after = lent.kept();
            for reference in before {
                assert_eq!(after.contains(&reference), !literal.spent(reference, clock));
            }
        }
    }
}

#[test]
fn a_trim_never_changes_a_later_verdict() {
    for (mut generator, _, untrimmed) in random_states(200_000, 400) {
        let mut trimmed = untrimmed.clone();
        assert_eq!(trimmed.trim(generator.below(1_100)), 0);
        for _ in 0..10 {
            let clock = trimmed.record[GREATEST_CLOCK] + generator.below(600);
            assert_eq!(trimmed.verdict(clock), untrimmed.verdict(clock));
        }
    }
}

#[test]
fn how_references_are_split_into_appends_makes_no_difference() {
    let mut accepted = 0;
    for (mut generator, _, mut whole) in random_states(300_000, 400) {
        let mut split = whole.clone();
        let duration = generator.between(1, 12) as u32;
        let count = generator.between(2, 6) as u32;
        if whole.join(duration, count) == 0 {
            accepted += 1;
            for _ in 0..count {
                assert_eq!(split.join(duration, 1), 0);
            }
            assert_eq!(split, whole);
        }
    }
    assert!(accepted > 100, "{}", accepted);
}

#[test]
fn trims_and_appends_may_change_places() {
    // The same accepted appends and the same greatest clock leave the same memory, whether the
    // trim stands before or behind the append.
    let mut accepted = 0;
    for (mut generator, _, mut trim_first) in random_states(400_000, 400) {
        let mut trim_last = trim_first.clone();
        let clock = generator.below(1_100);
        let duration = generator.between(1, 12) as u32;
        assert_eq!(trim_first.trim(clock), 0);
        if trim_first.join(duration, 3) == 0 && trim_last.join(duration, 3) == 0 {
            accepted += 1;
            assert_eq!(trim_last.trim(clock), 0);
            assert_eq!(trim_first, trim_last);
        }
    }
    assert!(accepted > 100, "{}", accepted);
}

#[test]
fn an_append_with_a_trim_is_both_calls_or_neither() {
    let (mut accepted, mut no_room, mut gaps) = (0, 0, 0);
    for (mut generator, _, before) in random_states(600_000, 800) {
        let (mut one_call, mut two_calls) = (before.clone(), before.clone());
        let stamp = (before.record[NEXT_TICK] + generator.pick(&[0, 0, 0, 1])) as u32;
        let duration = generator.between(1, 12) as u32;
        let clock = generator.below(1_100);
        match one_call.append_trim(stamp, duration, 3, clock) {
            0 => {
                accepted += 1;
                assert_eq!(two_calls.append_stamp(stamp, duration, 3), 0);
                assert_eq!(two_calls.trim(clock), 0);
                assert_eq!(one_call, two_calls);
            }
            number => {
                no_room += usize::from(number == 9);
                gaps += usize::from(number == 4);
                assert_eq!(two_calls.append_stamp(stamp, duration, 3), number);
                assert_eq!(one_call, before);
            }
        }
    }
    assert!(
        accepted > 100 && no_room > 50 && gaps > 50,
        "{} accepted, {} without room, {} gaps",
        accepted,
        no_room,
        gaps
    );
}

#[test]
fn written_and_read_back() {
    let mut written = 0;
    for (_, _, lent) in random_states(500_000, 400) {
        let bytes = match lent.write() {
            Ok(bytes) => bytes,
            Err(refusal) => {
                assert_eq!((refusal, lent.record[RUNS_USED]), (12, 0));
                continue;
            }
        };
        written += 1;
        let mut again = Lent::anything(lent.table.len());
        assert_eq!(again.read(&bytes), Ok(()));
        assert_eq!(again.table, lent.table);
        let mut expected = lent.record.clone();
        expected[FIRST_NUMBER] += lent.record[DROPPED];
        expected[ACCEPTED] -= lent.record[DROPPED];
        expected[DROPPED] = 0;
        expected[GREATEST_CLOCK] = 0;
        assert_eq!(again.record, expected);
        assert_eq!(again.write(), Ok(bytes));
    }
    assert!(written > 100, "{}", written);
}
