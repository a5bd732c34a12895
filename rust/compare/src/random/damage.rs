//! Words to change before a call: single ones, and several that fit together but for one rule of
//! agreement, so that each rule is asked by itself.

use flonterri::words::{word, RECORD_WORDS, RUN_WORDS};

use crate::generator::Generator;
use crate::limits;
use crate::state::{Run, State};
use crate::step::{Damage, Lent, Place};

/// Changed words; none where the chosen change has no place in this memory.
pub fn damage(generator: &mut Generator, lent: &Lent) -> Vec<Damage> {
    let state = State::of(lent);
    match generator.below(20) {
        0 => emptied(generator, &state, lent.table.len()),
        1 => run_made_longer(generator, &state),
        2 => run_split(generator, &state, lent.table.len()),
        3 => run_added(generator, &state, lent.table.len()),
        4 => gap_between_runs(generator, &state),
        5 => vec![update_period(generator)],
        6 => vec![one_word(generator, lent), one_word(generator, lent)],
        _ => vec![one_word(generator, lent)],
    }
}

/// The words of an earlier record: the first, the last or any that is not the present one; none where
/// there is none.
pub fn older_record(generator: &mut Generator, lent: &Lent, earlier: &[Vec<u64>]) -> Vec<Damage> {
    let others = earlier.iter().filter(|older| **older != lent.record);
    let others: Vec<&Vec<u64>> = others.collect();
    if others.is_empty() {
        return Vec::new();
    }
    let at = match generator.below(3) {
        0 => 0,
        1 => others.len() - 1,
        _ => generator.place(others.len()),
    };
    lent.older(others[at])
}

fn record(at: usize, word: u64) -> Damage {
    Damage {
        place: Place::Record(at),
        word,
    }
}

fn table(at: usize, word: u64) -> Damage {
    Damage {
        place: Place::Table(at),
        word,
    }
}

/// The words of a run.
fn run(at: usize, run: Run) -> impl Iterator<Item = Damage> {
    let words = [run.start, run.duration, run.count];
    (0..RUN_WORDS).map(move |part| table(RUN_WORDS * at + part, words[part]))
}

fn one_word(generator: &mut Generator, lent: &Lent) -> Damage {
    let place = if lent.table.is_empty() || generator.one_in(2) {
        Place::Record(generator.place(RECORD_WORDS))
    } else {
        Place::Table(generator.place(lent.table.len()))
    };
    let old = match place {
        Place::Record(at) => lent.record[at],
        Place::Table(at) => lent.table[at],
    };
    Damage {
        place,
        word: other_word(generator, old),
    }
}

/// Another update period: any within its limit agrees.
fn update_period(generator: &mut Generator) -> Damage {
    let within = [0, 1, 2_000, limits::MILLIS - 1, limits::MILLIS];
    let over = [limits::MILLIS + 1, u64::MAX];
    let word = if generator.one_in(3) {
        generator.pick(&over)
    } else {
        generator.pick(&within)
    };
    record(word::UPDATE_PERIOD, word)
}

fn other_word(generator: &mut Generator, old: u64) -> u64 {
    match generator.below(10) {
        0 | 1 => old.wrapping_add(1),
        2 | 3 => old.wrapping_sub(1),
        4 => generator.pick(&[0, 1, 2]),
        5 => generator.pick(&[
            limits::TICK,
            limits::TICK + 1,
            limits::MILLIS,
            limits::MILLIS + 1,
        ]),
        6 => generator.pick(&[
            limits::NUMBER,
            limits::NUMBER + 1,
            limits::ACCEPTED,
            limits::ACCEPTED + 1,
            limits::TIMESCALE,
            limits::TIMESCALE + 1,
        ]),
        7 => generator.pick(&[u64::MAX, u64::MAX - 1, 1 << 63]),
        8 => old ^ (1 << generator.below(64)),
        _ => generator.of_any_size(),
    }
}

/// Everything dropped, and any next tick: it agrees up to the limit of ticks.
fn emptied(generator: &mut Generator, state: &State, table_words: usize) -> Vec<Damage> {
    let next_tick = match generator.below(4) {
        0 => limits::TICK,
        1 => limits::TICK + 1,
        2 => generator.below(limits::TICK),
        _ => state.next_tick,
    };
    let mut damage = vec![
        record(word::DROPPED, state.accepted),
        record(word::NEXT_TICK, next_tick),
        record(word::RUNS_USED, 0),
    ];
    damage.extend((0..table_words).map(|at| table(at, 0)));
    damage
}

/// The last run a few references longer and the record with it, or all of it but one word.
fn run_made_longer(generator: &mut Generator, state: &State) -> Vec<Damage> {
    let last = match state.runs.last() {
        Some(last) => *last,
        None => return Vec::new(),
    };
    let more = generator.between(1, 3);
    let ticks = last.duration.wrapping_mul(more);
    let last_word = RUN_WORDS * state.runs.len() - 1;
    let mut damage = vec![
        table(last_word, last.count.wrapping_add(more)),
        record(word::ACCEPTED, state.accepted.wrapping_add(more)),
        record(word::NEXT_TICK, state.next_tick.wrapping_add(ticks)),
    ];
    if generator.one_in(3) {
        damage.remove(generator.place(damage.len()));
    }
    damage
}

/// The last run as two runs of one duration: all agrees but that neighbours differ.
fn run_split(generator: &mut Generator, state: &State, table_words: usize) -> Vec<Damage> {
    let used = state.runs.len();
    let last = match state.runs.last() {
        Some(last) if last.count > 1 && used < table_words / RUN_WORDS => *last,
        _ => return Vec::new(),
    };
    let first = Run {
        count: generator.between(1, last.count - 1),
        ..last
    };
    let second = Run {
        start: first.end(),
        count: last.count - first.count,
        ..last
    };
    let mut damage = vec![record(word::RUNS_USED, used as u64 + 1)];
    damage.extend(run(used - 1, first));
    damage.extend(run(used, second));
    damage
}

/// One more run at the end, with no reference, with no duration, or so long that its end comes
/// round to where it starts.
fn run_added(generator: &mut Generator, state: &State, table_words: usize) -> Vec<Damage> {
    let used = state.runs.len();
    if used >= table_words / RUN_WORDS {
        return Vec::new();
    }
    let bits = generator.between(1, 20);
    let (duration, count) =
        generator.pick(&[(7, 0), (0, 1), (0, 5), (1 << (64 - bits), 1 << bits)]);
    let added = Run {
        start: state.next_tick,
        duration,
        count,
    };
    let mut damage = vec![
        record(word::RUNS_USED, used as u64 + 1),
        record(word::ACCEPTED, state.accepted.wrapping_add(count)),
    ];
    damage.extend(run(used, added));
    damage
}

/// Every run behind some place, and the next tick, moved by a tick: all agrees but that runs join.
fn gap_between_runs(generator: &mut Generator, state: &State) -> Vec<Damage> {
    let used = state.runs.len();
    if used < 2 {
        return Vec::new();
    }
    let later = generator.one_in(2);
    let moved = |tick: u64| {
        if later {
            tick.wrapping_add(1)
        } else {
            tick.wrapping_sub(1)
        }
    };
    let mut damage = vec![record(word::NEXT_TICK, moved(state.next_tick))];
    let from = generator.between(1, used as u64 - 1) as usize;
    damage.extend((from..used).map(|at| table(RUN_WORDS * at, moved(state.runs[at].start))));
    damage
}
