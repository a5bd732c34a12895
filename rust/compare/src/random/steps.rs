//! The next call of a sequence, chosen by a seed and by what stands in memory.
//!
//! A sequence is a list of seeds. If some are left out, the others choose their calls by the
//! memory that they then find, so a shorter sequence still makes sense.

use crate::generator::Generator;
use crate::limits;
use crate::random::{appends, clocks, damage, files, heads};
use crate::state::{Run, State};
use crate::step::{Call, Lent, Step};
use crate::weight;

/// The most references that a sequence may keep before it opens anew.
const MOST_KEPT: u64 = 3_000;

/// Bytes of a head line and an end line, and of an S line, with their line feeds.
const HEAD_AND_END: usize = 99 + 11;
const S_LINE: usize = 35;

/// The step of a seed in this memory, behind these records of the same timeline.
pub fn step(seed: u64, lent: &Lent, earlier: &[Vec<u64>]) -> Step {
    let mut generator = Generator::new(seed);
    let state = State::of(lent);
    let mut step = Step::of(call(&mut generator, &state));
    match generator.below(60) {
        0 => step.record_words = generator.pick(&[0, 1, 11, 13, 24]),
        1 if step.out_words > 0 => {
            let right = step.out_words;
            step.out_words = generator.pick(&[0, right - 1, right + 1, right + 5]);
        }
        2..=6 => {
            let damage = damage::damage(&mut generator, lent);
            if is_light(&step.call, &State::of(&lent.damaged(&damage))) {
                step.damage = damage;
            }
        }
        7 | 8 if !step.call.makes_record() => {
            let damage = damage::older_record(&mut generator, lent, earlier);
            if is_light(&step.call, &State::of(&lent.damaged(&damage))) {
                step.older = !damage.is_empty();
                step.damage = damage;
            }
        }
        _ => {}
    }
    step
}

/// True where the plain side can store what the call would store in this memory.
fn is_light(call: &Call, state: &State) -> bool {
    call.given().map_or(true, |(duration, count)| {
        appends::is_light(state, duration, count)
    })
}

fn call(generator: &mut Generator, state: &State) -> Call {
    if (state.is_closed() && generator.percent(80)) || state.kept() > MOST_KEPT {
        return open_or_read(generator);
    }
    match generator.below(52) {
        0 => open_or_read(generator),
        1..=13 => append(generator, state),
        14..=19 => append_stamp(generator, state),
        20..=24 => Call::Trim {
            clock: clocks::clock(generator, state),
        },
        25..=28 => Call::Verdict {
            clock: clocks::clock(generator, state),
        },
        29 | 30 => Call::VerdictWhole,
        31 | 32 => Call::Availability {
            number: number(generator, state),
        },
        33 | 34 => touching(generator, state),
        35 | 36 => read(generator),
        37 | 38 => available_at(generator, state),
        39 | 40 => Call::CoveredEdge,
        41 | 42 => full_tick(generator, state),
        43..=48 => append_trim(generator, state),
        _ => write(generator, state),
    }
}

fn open_or_read(generator: &mut Generator) -> Call {
    match generator.below(10) {
        0 => Call::Open(heads::over_a_limit(generator)),
        1 | 2 => read(generator),
        _ => Call::Open(heads::opening(generator)),
    }
}

fn append(generator: &mut Generator, state: &State) -> Call {
    let (start, duration, count) = appends::append(generator, state);
    Call::Append {
        start,
        duration,
        count,
    }
}

fn append_stamp(generator: &mut Generator, state: &State) -> Call {
    let (start, duration, count) = appends::append(generator, state);
    Call::AppendStamp {
        stamp: start as u32,
        duration,
        count,
    }
}

fn append_trim(generator: &mut Generator, state: &State) -> Call {
    let (start, duration, count) = appends::append(generator, state);
    let given = Run {
        start: state.next_tick,
        duration: u64::from(duration),
        count: u64::from(count),
    };
    Call::AppendTrim {
        stamp: start as u32,
        duration,
        count,
        clock: clocks::clock_behind(generator, state, given),
    }
}

/// A number: kept, just before or behind the kept ones, one whose low 32 bits alone are kept, or
/// anything.
fn number(generator: &mut Generator, state: &State) -> u64 {
    let first = state.first_kept_number();
    let kept = first.wrapping_add(generator.below(state.kept().max(1)));
    match generator.below(9) {
        0 => first.wrapping_sub(1),
        1 => first.wrapping_add(state.kept()),
        2 => generator.pick(&[0, limits::NUMBER, limits::NUMBER + 1, u64::MAX]),
        3 => generator.of_any_size(),
        4 => kept.wrapping_add(generator.pick(&[1, 1 << 31]) << 32),
        _ => kept,
    }
}

/// A number at the start or the end of its own availability, or at some other clock.
fn available_at(generator: &mut Generator, state: &State) -> Call {
    let number = number(generator, state);
    let clock = match state.availability_of(number) {
        Some((start, end)) if generator.percent(70) => {
            let moment = generator.pick(&[start, end]);
            generator.near(moment)
        }
        _ => clocks::clock(generator, state),
    };
    Call::AvailableAt { number, clock }
}

/// A stamp near the next tick's, near the other side of the circle, or any.
fn full_tick(generator: &mut Generator, state: &State) -> Call {
    let stamp = match generator.below(5) {
        0 => generator.near(state.next_tick.wrapping_add(1 << 31)),
        1 => generator.number(),
        2 => generator.pick(&[0, limits::NUMBER]),
        _ => appends::start(generator, state),
    };
    Call::FullTick {
        stamp: stamp as u32,
    }
}

/// A span whose ends lie at or beside the ends of runs.
fn touching(generator: &mut Generator, state: &State) -> Call {
    let edge = |generator: &mut Generator| match generator.below(8) {
        0 => generator.pick(&[0, u64::MAX, limits::TICK + 1]),
        1 => generator.of_any_size(),
        _ if state.runs.is_empty() => generator.near(state.next_tick),
        _ => {
            let run = generator.pick(&state.runs);
            let edge = generator.pick(&[run.start, run.end()]);
            generator.near(edge)
        }
    };
    let (a, b) = (edge(generator), edge(generator));
    if a > b && generator.percent(80) {
        Call::Touching { a: b, b: a }
    } else {
        Call::Touching { a, b }
    }
}

/// A reading of a file that the plain side can keep.
fn read(generator: &mut Generator) -> Call {
    let mut bytes = files::file(generator);
    while weight::kept_by_reading(&bytes) > weight::MOST_AMONG_CALLS {
        bytes = files::file(generator);
    }
    Call::Read { bytes }
}

/// A writing into just enough room, one byte less, or some other room.
fn write(generator: &mut Generator, state: &State) -> Call {
    let length = HEAD_AND_END + S_LINE * state.runs.len();
    let room = match generator.below(5) {
        0 => length - 1,
        1 | 2 => length,
        3 => length + generator.place(50),
        _ => generator.place(2 * length),
    };
    Call::Write { room }
}
