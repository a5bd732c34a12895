//! Starts, durations and counts to append.

use crate::generator::Generator;
use crate::limits;
use crate::state::State;

/// The most references that one append may store, since the plain side keeps each by itself.
const MOST_STORED: u64 = 1_000;

/// A start, a duration and a count.
pub fn append(generator: &mut Generator, state: &State) -> (u64, u32, u32) {
    let duration = duration(generator, state);
    let start = start(generator, state);
    (start, duration, count(generator, state, duration))
}

/// A start: most join, the others lie just beside the next tick, a turn of the stamp away, or
/// anywhere.
pub fn start(generator: &mut Generator, state: &State) -> u64 {
    let next = state.next_tick;
    match generator.below(24) {
        0 => next.wrapping_add(1),
        1 => next.wrapping_sub(1),
        2 => next.wrapping_add((1 << 31) - 1),
        3 => next.wrapping_add(1 << 31),
        4 => next.wrapping_add(1 << 32),
        5 => next.wrapping_sub(generator.pick(&[1 << 32, (1 << 31) - 1])),
        6 => generator.of_any_size(),
        7 => generator.pick(&[0, limits::TICK, limits::TICK + 1, u64::MAX]),
        _ => next,
    }
}

/// A duration: often that of the last run, mostly short, rarely 0 or at its limit.
fn duration(generator: &mut Generator, state: &State) -> u32 {
    let last = state.runs.last().map_or(1, |run| run.duration as u32);
    match generator.below(40) {
        0 => 0,
        1 => generator.pick(&[u32::MAX, u32::MAX - 1, 1 << 31]),
        2 | 3 => state.timescale.saturating_mul(4).min(1 << 31) as u32,
        4 => generator.of_any_size() as u32,
        5..=20 => last,
        _ => generator.between(1, 12) as u32,
    }
}

/// A count: mostly small, rarely 0, and now and then one that comes to a limit or just past it.
fn count(generator: &mut Generator, state: &State, duration: u32) -> u32 {
    let count = match generator.below(20) {
        0 if generator.one_in(2) => 0,
        1 => generator.between(5, 60),
        2 | 3 => count_to_a_limit(generator, state, duration),
        4 | 5 => count_about_the_spent(generator, state, duration),
        6 if generator.one_in(2) => generator.pick(&[u64::from(u32::MAX), 1 << 31, (1 << 31) + 1]),
        _ => generator.between(1, 4),
    };
    let count = u32::try_from(count).unwrap_or(u32::MAX);
    if is_light(state, duration, count) {
        count
    } else {
        generator.between(1, 4) as u32
    }
}

/// True where the plain side can store what an append would store.
pub fn is_light(state: &State, duration: u32, count: u32) -> bool {
    state.stores(duration, u64::from(count)) <= MOST_STORED
}

/// The most that a limit allows, or one more.
fn count_to_a_limit(generator: &mut Generator, state: &State, duration: u32) -> u64 {
    let most = match generator.below(4) {
        0 => limits::TICK.saturating_sub(state.next_tick) / u64::from(duration.max(1)),
        1 => limits::ACCEPTED.saturating_sub(state.accepted),
        2 => limits::NUMBER.saturating_sub(state.first_number.saturating_add(state.accepted)),
        _ => state.count_to_period_end(duration).unwrap_or(1),
    };
    most.saturating_add(generator.below(2))
}

/// As many as are spent at once, one less, or a few more.
fn count_about_the_spent(generator: &mut Generator, state: &State, duration: u32) -> u64 {
    let spent = state.spent_at_once(duration, limits::ACCEPTED);
    match generator.below(4) {
        0 => spent.saturating_sub(1).max(1),
        1 => spent.max(1),
        _ => spent + generator.between(1, 3),
    }
}
