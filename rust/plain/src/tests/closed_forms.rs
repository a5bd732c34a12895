//! Closed forms of the library against enumeration and search, on small cases.

use std::iter;

use super::literal::{Literal, Ticks};
use super::sequences::{random_head, random_states, tick_base};
use super::support::*;
use crate::reference::{runs_of, Reference, Run};
use crate::timeline::Timeline;
use crate::units::{Grains, Millis, RefDuration, Span, Tick, WideTick};
use crate::verdict::percent;
use crate::window::{Head, HeadFields};

fn reference(start: u64, duration: u64) -> Reference {
    Reference {
        start: Tick::new(start).expect("a start within the limit"),
        duration: RefDuration::new(duration).expect("a duration within the limit"),
    }
}

fn ticks_of(reference: Reference) -> Ticks {
    (
        i128::from(reference.start.get()),
        i128::from(reference.start.get()) + i128::from(reference.duration.get()),
    )
}

/// A head, as the library and as the definitions have it, a run near its period, and a clock.
struct Case {
    fields: HeadFields,
    head: Head,
    literal: Literal,
    run: Run,
    clock: u64,
}

fn cases(seed: u64, many: usize) -> impl Iterator<Item = Case> {
    let mut generator = Generator::new(seed);
    iter::repeat_with(move || random_case(&mut generator)).take(many)
}

fn random_case(generator: &mut Generator) -> Case {
    let fields = random_head(generator);
    Case {
        fields,
        head: fields.judge().expect("a head within its limits"),
        literal: Literal::of(fields),
        run: Run {
            start: Tick::new(tick_base(fields) + generator.below(60)).expect("within the limit"),
            duration: RefDuration::new(generator.between(1, 30)).expect("not 0"),
            count: generator.between(1, 8),
        },
        clock: generator.below(1_500),
    }
}

impl Case {
    /// The first reference of the run.
    fn one(&self) -> Reference {
        self.run.reference(0)
    }

    /// What the library says of a reference at the clock.
    fn spent(&self, one: Reference) -> bool {
        self.head.spent(one, grains(&self.head, self.clock))
    }

    /// What the definitions say of it.
    fn spent_literally(&self, one: Reference) -> bool {
        self.literal.spent(ticks_of(one), i128::from(self.clock))
    }

    /// True where the reference of an index starts at or after the period end.
    fn starts_past(&self, index: u64) -> bool {
        let start = self.run.start_of(index);
        self.head.past_period(self.head.place(start))
    }
}

/// A clock in grains.
fn grains(head: &Head, clock: u64) -> Grains {
    head.timescale.grains_of_millis(i128::from(clock))
}

#[test]
fn needed_by_the_paper() {
    let mut needed = 0;
    for case in cases(10, 4_000) {
        let found = case.head.needed(case.one(), grains(&case.head, case.clock));
        let clock = i128::from(case.clock);
        assert_eq!(found, case.literal.needed(ticks_of(case.one()), clock));
        needed += usize::from(found);
    }
    assert!(needed > 400 && needed < 3_600, "{}", needed);
}

#[test]
fn spent_against_a_search_through_the_milliseconds() {
    let (mut spent, mut past_period) = (0, 0);
    for case in cases(11, 4_000) {
        let found = case.spent(case.one());
        assert_eq!(found, case.spent_literally(case.one()));
        spent += usize::from(found);
        past_period += usize::from(case.starts_past(0));
    }
    assert!(spent > 400 && spent < 3_600 && past_period > 100);
}

/// A number up to a limit: anywhere, low, or near the limit.
fn up_to(generator: &mut Generator, limit: u64) -> u64 {
    match generator.below(3) {
        0 => generator.between(0, limit),
        1 => generator.below(1_000).min(limit),
        _ => limit - generator.below(1_000).min(limit),
    }
}

/// A head up to the limits, and a clock.
fn far_head(generator: &mut Generator) -> (HeadFields, u64) {
    let head = HeadFields {
        timescale: up_to(generator, 9_999_999) + 1,
        offset: up_to(generator, Tick::MAX),
        start: up_to(generator, Millis::MAX),
        duration: up_to(generator, Millis::MAX),
        depth: up_to(generator, Millis::MAX),
        first_number: 0,
        update: up_to(generator, Millis::MAX),
    };
    (head, up_to(generator, Millis::MAX))
}

/// A reference that ends near one of the points of the comparison, if that is within the limits.
fn near_reference(generator: &mut Generator, literal: &Literal, clock: u64) -> Option<Reference> {
    let near = generator.pick(&[
        literal.start,
        literal.start + literal.duration,
        i128::from(clock) - literal.depth,
    ]);
    let end = literal.offset
        + (near - literal.start) * literal.timescale / 1000
        + i128::from(generator.below(5))
        - 2;
    let duration = up_to(generator, u64::from(u32::MAX - 1)) + 1;
    let start = u64::try_from(end - i128::from(duration)).ok()?;
    let within = start <= Tick::MAX - duration;
    within.then(|| reference(start, duration))
}

/// The paper's comparison: the earlier of the end and the period end is at or before the later of
/// period start and c - depth, the second only where depth is given.
fn compared(literal: &Literal, one: Reference, clock: u64) -> bool {
    let end = literal.place(ticks_of(one).1);
    let earlier = literal.period_end().map_or(end, |period| end.min(period));
    let before = |millis: i128| earlier <= millis * literal.timescale;
    before(literal.start) || literal.depth > 0 && before(i128::from(clock) - literal.depth)
}

#[test]
fn spent_against_the_papers_comparison_up_to_the_limits() {
    let mut generator = Generator::new(18);
    let (mut spent, mut kept) = (0, 0);
    for _ in 0..40_000 {
        let (fields, clock) = far_head(&mut generator);
        let head = fields.judge().expect("a head within its limits");
        let literal = Literal::of(fields);
        let starts_before_the_end =
            |one: &Reference| !head.past_period(head.place(one.start.wide()));
        let one = near_reference(&mut generator, &literal, clock).filter(starts_before_the_end);
        if let Some(one) = one {
            let expected = compared(&literal, one, clock);
            assert_eq!(head.spent(one, grains(&head, clock)), expected);
            spent += usize::from(expected);
            kept += usize::from(!expected);
        }
    }
    assert!(spent > 1_000 && kept > 1_000, "{} {}", spent, kept);
}

#[test]
fn spent_only_ever_turns_true() {
    let mut spent = 0;
    for case in cases(12, 2_000) {
        if case.spent(case.one()) {
            spent += 1;
            for later in [1, 2, 50, 500] {
                let clock = grains(&case.head, case.clock + later);
                assert!(case.head.spent(case.one(), clock));
            }
        }
    }
    assert!(spent > 200, "{}", spent);
}

#[test]
fn spent_count_against_counting() {
    let mut compared = 0;
    for case in cases(13, 4_000) {
        let run = case.run;
        if case.starts_past(run.count - 1) || run.end().limited().is_none() {
            continue;
        }
        compared += 1;
        let references = (0..run.count).map(|index| run.reference(index));
        let counted = references.filter(|one| case.spent_literally(*one)).count();
        let found = case.head.spent_count(run, grains(&case.head, case.clock));
        assert_eq!(found, counted as u64);
    }
    assert!(compared > 1_000);
}

/// The law of the update period, over the integers: the sums may pass the limits.
#[test]
fn the_window_is_that_of_a_later_clock_and_a_deeper_window() {
    let mut generator = Generator::new(19);
    for _ in 0..4_000 {
        let (fields, clock) = far_head(&mut generator);
        let head = fields.judge().expect("a head within its limits");
        let literal = Literal::of(fields);
        let deeper = Literal {
            depth: match literal.depth {
                0 => 0,
                depth => depth + literal.update,
            },
            update: 0,
            ..literal
        };
        let window = head.window_at(grains(&head, clock));
        let later = i128::from(clock) + literal.update;
        assert_eq!((window.from.get(), window.to.get()), deeper.window(later));
    }
}

#[test]
fn spent_takes_no_part_of_the_update_period() {
    for case in cases(20, 2_000) {
        let without = HeadFields {
            update: 0,
            ..case.fields
        };
        let without = without.judge().expect("a head within its limits");
        let clock = grains(&without, case.clock);
        assert_eq!(case.spent(case.one()), without.spent(case.one(), clock));
    }
}

#[test]
fn the_covered_edge_by_the_paper() {
    let (mut none, mut clocks, mut limit) = (0, 0, 0);
    for (_, head, lent) in random_states(960_000, 2_000) {
        let literal = Literal::of(head);
        let next = literal.place(i128::from(lent.record[NEXT_TICK]));
        let passes = |clock: u64| literal.window(i128::from(clock)).1 > next;
        match lent.covered_edge().expect("an accepted question") {
            [0, 0] => {
                assert!(passes(0));
                none += 1;
            }
            [1, Millis::MAX] => {
                assert!(!passes(Millis::MAX));
                limit += 1;
            }
            [1, edge] => {
                assert!(!passes(edge) && passes(edge + 1));
                clocks += 1;
            }
            other => panic!("{:?}", other),
        }
    }
    assert!(
        none > 100 && clocks > 100 && limit > 100,
        "{} {} {}",
        none,
        clocks,
        limit
    );
}

#[test]
fn needed_ticks_against_enumeration() {
    for Case {
        head,
        literal,
        clock,
        ..
    } in cases(14, 2_000)
    {
        let by_clock = (
            head.window_at(grains(&head, clock)),
            literal.window(i128::from(clock)),
        );
        let whole = head.whole_period().zip(literal.whole_period());
        for (window, stretch) in whole.into_iter().chain([by_clock]) {
            assert_eq!((window.from.get(), window.to.get()), stretch);
            let ticks = head.needed_ticks(window);
            let enumerated = literal.needed_ticks(stretch);
            assert_eq!(ticks.count(), enumerated.len() as u64);
            if let Some(first) = enumerated.first() {
                assert_eq!(ticks.from.get(), *first);
            }
        }
    }
}

#[test]
fn needed_ticks_of_any_window_of_grains() {
    // Windows that begin and end within a tick, at a timescale of one tick a millisecond.
    let head = OPEN_ENDED.judge().expect("a head within its limits");
    let literal = Literal::of(OPEN_ENDED);
    for from in (0..3_100).step_by(99) {
        for to in (0..3_100).step_by(101) {
            let ticks = head.needed_ticks(Span {
                from: Grains::new(from),
                to: Grains::new(to),
            });
            let enumerated = literal.needed_ticks((from, to));
            assert_eq!(ticks.count(), enumerated.len() as u64);
        }
    }
}

#[test]
fn rounding_of_grains_to_ticks() {
    for grains in -3_000_i128..=3_000 {
        let down = Grains::new(grains).ticks_down();
        let up = Grains::new(grains).ticks_up();
        assert!(down * 1000 <= grains && grains < (down + 1) * 1000);
        assert!((up - 1) * 1000 < grains && grains <= up * 1000);
    }
}

#[test]
fn verdicts_against_enumeration() {
    let mut kinds = [0; 3];
    for (mut generator, head, lent) in random_states(900_000, 2_000) {
        let literal = Literal::of(head);
        let kept = lent.kept();
        let clock = lent.record[GREATEST_CLOCK] + generator.below(700);
        let found = lent.verdict(clock).expect("an accepted verdict");
        let window = literal.window(i128::from(clock));
        assert_eq!(found, literal.verdict(&kept, window));
        kinds[found[0] as usize] += 1;
        match literal.whole_period() {
            None => assert_eq!(lent.verdict_whole(), Err(19)),
            Some(window) => {
                let found = lent.verdict_whole().expect("an accepted verdict");
                assert_eq!(found, literal.verdict(&kept, window));
                kinds[found[0] as usize] += 1;
            }
        }
    }
    assert!(kinds.iter().all(|times| *times > 50), "{:?}", kinds);
}

#[test]
fn the_count_of_a_negative_r_against_counting_up() {
    let mut accepted = 0;
    for case in cases(16, 3_000) {
        let Case { literal, run, .. } = case;
        let end = match literal.period_end() {
            Some(end) if literal.place(i128::from(run.start.get())) < end => end,
            _ => continue,
        };
        let duration = i128::from(run.duration.get());
        let start = i128::from(run.start.get());
        let count = (1..)
            .find(|count| literal.place(start + count * duration) >= end)
            .expect("a count that reaches the end");
        let fields = HeadFields {
            first_number: 0,
            ..case.fields
        };
        let mut timeline =
            Timeline::open(fields, run.start.get(), 10).expect("an accepted opening");
        match timeline.append_to_period_end(run.start.get(), run.duration.get()) {
            Ok(()) => {
                assert_eq!(i128::from(timeline.accepted()), count);
                accepted += 1;
            }
            Err(refusal) => {
                assert_eq!(refusal.number(), 6);
                assert!(start + count * duration > i128::from(Tick::MAX));
            }
        }
    }
    assert!(accepted > 500);
}

#[test]
fn runs_against_their_references() {
    let mut generator = Generator::new(17);
    for _ in 0..500 {
        let mut references: Vec<Reference> = Vec::new();
        let mut next = generator.below(100);
        for _ in 0..generator.below(20) {
            let duration = generator.between(1, 3);
            references.push(reference(next, duration));
            next += duration;
        }
        let runs = runs_of(&references);
        let expanded: Vec<Reference> = runs
            .iter()
            .flat_map(|run| (0..run.count).map(|index| run.reference(index)))
            .collect();
        assert_eq!(expanded, references);
        assert!(runs.iter().all(|run| run.count > 0));
        assert!(runs
            .windows(2)
            .all(|pair| pair[0].duration != pair[1].duration));
    }
}

#[test]
fn spans_share_what_points_share() {
    let point = |number: i128| WideTick::new(number);
    for a in 0..5 {
        for b in 0..5 {
            for c in 0..5 {
                for d in 0..5 {
                    let one = Span {
                        from: point(a),
                        to: point(b),
                    };
                    let other = Span {
                        from: point(c),
                        to: point(d),
                    };
                    let shared = (0..5)
                        .filter(|tick| one.holds(point(*tick)) && other.holds(point(*tick)))
                        .count();
                    assert_eq!(one.overlaps(other), shared > 0);
                    assert_eq!(one.common(other).count(), shared as u64);
                }
            }
        }
    }
}

#[test]
fn percent_is_the_greatest_that_does_not_pass() {
    assert_eq!(percent(0, 0), None);
    assert_eq!(percent(u64::MAX, u64::MAX), Some(100));
    assert_eq!(percent(u64::MAX - 1, u64::MAX), Some(99));
    for needed in 1..=120 {
        for covered in 0..=needed {
            let found = percent(covered, needed).expect("needed is above 0");
            assert!(found * needed <= covered * 100);
            assert!((found + 1) * needed > covered * 100);
        }
    }
}
