//! Files, good ones and ones with a flaw.

use crate::generator::Generator;
use crate::limits;
use crate::opening::Opening;
use crate::random::{heads, mutations};
use crate::state::State;
use crate::text::{bytes_of, Line, ALL_ONES};

/// What is wrong with an S line.
#[derive(Clone, Copy, Debug, PartialEq, Eq)]
enum Flaw {
    ZeroDuration,
    Gap,
    Overlap,
    FarStart,
    PastTickLimit,
    PastCountLimit,
    PastPeriodEnd,
    StartsPastPeriodEnd,
}

const FLAWS: [Flaw; 8] = [
    Flaw::ZeroDuration,
    Flaw::Gap,
    Flaw::Overlap,
    Flaw::FarStart,
    Flaw::PastTickLimit,
    Flaw::PastCountLimit,
    Flaw::PastPeriodEnd,
    Flaw::StartsPastPeriodEnd,
];

/// How the S lines of a file are to be.
struct Plan {
    lines: u64,
    /// The line with a flaw, and the flaw.
    flaw: Option<(u64, Flaw)>,
    /// A negative r on the last line.
    negative: bool,
    /// An S line behind the last.
    one_more: bool,
    /// Durations take turns, so that every line is a run of its own.
    alternate: bool,
}

/// The bytes of a file: a good one, one with a flaw in a field, one whose lines are out of order,
/// or one with damaged bytes.
pub fn file(generator: &mut Generator) -> Vec<u8> {
    let few = generator.between(1, 6);
    let lines = if generator.one_in(12) {
        generator.between(12, 18)
    } else {
        few
    };
    file_of(generator, lines)
}

/// The bytes of a file that needs so many runs, about as many as the program's table has.
pub fn file_of_many_runs(generator: &mut Generator) -> Vec<u8> {
    let lines = generator.pick(&[1_023, 1_024, 1_024, 1_025, 1_025, 1_025, 1_026]);
    let head = Opening {
        offset: generator.pick(&[0, 0, 3]),
        duration: generator.pick(&[0, 1_600, 1_600]),
        depth: generator.pick(&[0, 500]),
        update: generator.pick(&[0, 40]),
        ..Opening::OPEN_ENDED
    };
    let plan = Plan {
        lines,
        flaw: None,
        negative: head.duration > 0 && generator.percent(60),
        one_more: false,
        alternate: true,
    };
    let mut lines = lines_of(generator, head, &plan);
    if generator.one_in(6) {
        mutations::reorder(generator, &mut lines);
    }
    bytes_of(&lines)
}

/// The bytes of a file with many lines that all make one run, or two.
pub fn file_of_many_lines(generator: &mut Generator) -> Vec<u8> {
    let many = generator.between(500, 3_000);
    let head = Opening {
        depth: generator.pick(&[0, 500]),
        first_number: 7,
        ..Opening::OPEN_ENDED
    };
    let mut lines = vec![head_line(generator, head)];
    let change = generator.below(many);
    for at in 0..many {
        let d = if at < change { 5 } else { 6 };
        lines.push(Line::S {
            t: ALL_ONES,
            d,
            r: 0,
        });
    }
    lines.push(Line::End(many as u32));
    bytes_of(&lines)
}

/// A head line of either kind.
fn head_line(generator: &mut Generator, head: Opening) -> Line {
    if generator.one_in(3) {
        Line::OldHead(head)
    } else {
        Line::Head(head)
    }
}

fn file_of(generator: &mut Generator, lines: u64) -> Vec<u8> {
    let head = match generator.below(20) {
        0 => heads::over_a_limit(generator),
        _ => heads::opening(generator),
    };
    let flawed = generator.percent(30);
    let negative = if flawed { 40 } else { 15 };
    let any = generator.below(lines);
    let at = generator.pick(&[0, lines - 1, any]);
    let plan = Plan {
        lines,
        flaw: Some((at, generator.pick(&FLAWS))).filter(|_| flawed),
        negative: generator.percent(negative),
        one_more: generator.one_in(25),
        alternate: lines > 10,
    };
    let mut lines = lines_of(generator, head, &plan);
    if generator.one_in(7) {
        mutations::reorder(generator, &mut lines);
    }
    let mut bytes = bytes_of(&lines);
    if generator.one_in(4) {
        for _ in 0..generator.between(1, 2) {
            mutations::damage(generator, &mut bytes);
        }
    }
    bytes
}

/// The lines of a file by its plan. A flaw ends the S lines half of the time, so that a negative r
/// can stand on it.
fn lines_of(generator: &mut Generator, head: Opening, plan: &Plan) -> Vec<Line> {
    let mut state = State::opened(&head);
    let mut lines = vec![head_line(generator, head)];
    let ends_at_flaw = generator.one_in(2);
    let many = match plan.flaw {
        Some((at, _)) if ends_at_flaw => at + 1,
        _ => plan.lines,
    };
    let mut duration = 0;
    for at in 0..many {
        duration = next_duration(generator, plan, at, duration);
        let Fields { t, d, count } = fields(generator, &mut state, plan, at, duration);
        let r = if plan.negative && at + 1 == many {
            generator.pick(&[-1, -1, -2, i32::MIN])
        } else {
            (count - 1) as i32
        };
        lines.push(Line::S { t, d, r });
        let ticks = u64::from(d).saturating_mul(count);
        state.next_tick = state.next_tick.saturating_add(ticks);
        state.accepted += count;
    }
    if plan.one_more {
        lines.push(Line::S {
            t: ALL_ONES,
            d: duration,
            r: generator.pick(&[0, -1]),
        });
    }
    lines.push(Line::End(lines.len() as u32 - 1));
    lines
}

/// The fields of an S line, its count in place of r.
struct Fields {
    t: u64,
    d: u32,
    count: u64,
}

/// The fields of a line by the plan: good ones, or with the flaw that is planned for it.
fn fields(generator: &mut Generator, state: &mut State, plan: &Plan, at: u64, d: u32) -> Fields {
    let mut fields = Fields {
        t: start(generator, state, at),
        d,
        count: few_before_the_end(generator, state, plan, d),
    };
    if let Some((flawed, flaw)) = plan.flaw {
        if flawed == at {
            spoil(generator, state, flaw, &mut fields);
        }
    }
    fields
}

fn next_duration(generator: &mut Generator, plan: &Plan, at: u64, before: u32) -> u32 {
    if plan.alternate {
        return (at % 2) as u32 + 1;
    }
    match generator.below(20) {
        0 => generator.pick(&[u32::MAX, 1 << 31, 90_000]),
        1..=8 if before > 0 => before,
        _ => generator.between(1, 12) as u32,
    }
}

/// The t of a good line: the next tick, told or absent. An absent t on the first line is tick 0.
fn start(generator: &mut Generator, state: &mut State, at: u64) -> u64 {
    match (at, generator.below(8)) {
        (0, 0) => {
            state.next_tick = 0;
            ALL_ONES
        }
        (0, _) => state.next_tick,
        (_, 0..=4) => ALL_ONES,
        _ => state.next_tick,
    }
}

/// A small count, and no more than start before a known period end.
fn few_before_the_end(generator: &mut Generator, state: &State, plan: &Plan, d: u32) -> u64 {
    if plan.alternate {
        return 1;
    }
    let spent = state.spent_at_once(d, limits::ACCEPTED);
    let few = match generator.below(12) {
        0 => spent.max(1),
        1 => spent + generator.between(1, 3),
        _ => generator.between(1, 4),
    };
    let most = state.count_to_period_end(d).unwrap_or(few);
    few.min(most).clamp(1, limits::ACCEPTED)
}

/// Puts a flaw into the fields of a line.
fn spoil(generator: &mut Generator, state: &State, flaw: Flaw, fields: &mut Fields) {
    let next = state.next_tick;
    let to_tick_limit = |d: u32| limits::TICK.saturating_sub(next) / u64::from(d);
    match flaw {
        Flaw::ZeroDuration => fields.d = 0,
        Flaw::Gap => fields.t = next.saturating_add(generator.between(1, 3)),
        Flaw::Overlap => {
            let back = generator.pick(&[1, 1, 2, 3, 1 << 32]);
            fields.t = next.saturating_sub(back);
        }
        Flaw::FarStart => {
            let far = [0, limits::TICK, limits::TICK + 1, ALL_ONES - 1, 1 << 63];
            fields.t = generator.pick(&far);
        }
        Flaw::PastTickLimit => {
            if to_tick_limit(fields.d) >= limits::ACCEPTED {
                fields.d = u32::MAX;
            }
            fields.count = most_or_one_more(generator, to_tick_limit(fields.d));
        }
        Flaw::PastCountLimit => {
            let numbers = limits::NUMBER - state.first_number.min(limits::NUMBER);
            let most = numbers.min(limits::ACCEPTED).saturating_sub(state.accepted);
            fields.d = generator.between(1, 2) as u32;
            fields.count = most_or_one_more(generator, most);
        }
        Flaw::PastPeriodEnd => {
            let most = state.count_to_period_end(fields.d).unwrap_or(3);
            fields.count = most_or_one_more(generator, most);
        }
        Flaw::StartsPastPeriodEnd => {
            let ticks = u128::from(state.duration) * u128::from(state.timescale) / 1000;
            let end = (u128::from(state.offset) + ticks).min(u128::from(u64::MAX)) as u64;
            fields.t = generator.near(end);
        }
    }
}

/// The most that a limit allows, or one more, as far as an r can say it.
fn most_or_one_more(generator: &mut Generator, most: u64) -> u64 {
    (most + generator.below(2)).clamp(1, limits::ACCEPTED)
}
