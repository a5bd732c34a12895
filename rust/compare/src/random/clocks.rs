//! Clocks to trim at and to ask at.

use crate::generator::Generator;
use crate::limits;
use crate::state::{Run, State};

/// A clock near the greatest one, near the moment at which something leaves the window or enters
/// it, or at the limit.
pub fn clock(generator: &mut Generator, state: &State) -> u64 {
    match generator.below(40) {
        0 => generator.pick(&[
            limits::MILLIS + 1,
            limits::MILLIS + 1,
            u64::MAX,
            u64::MAX - 1,
        ]),
        1 => generator.pick(&[limits::MILLIS, limits::MILLIS - 1]),
        2 => generator.below(limits::MILLIS),
        _ => chosen(generator, state).min(limits::MILLIS),
    }
}

/// A clock behind an append: as above, or about the moment at which what it gives leaves the window.
pub fn clock_behind(generator: &mut Generator, state: &State, given: Run) -> u64 {
    if generator.one_in(4) {
        when_run_spent(generator, state, given).min(limits::MILLIS)
    } else {
        clock(generator, state)
    }
}

fn chosen(generator: &mut Generator, state: &State) -> u64 {
    match generator.below(16) {
        0 | 1 => generator.near(state.greatest_clock),
        2 => {
            let ahead = generator.pick(&[0, state.update]);
            generator.near(state.start.saturating_sub(ahead))
        }
        3 => {
            let end = state.start.saturating_add(state.duration);
            let depth = generator.pick(&[0, state.depth]);
            let ahead = generator.pick(&[0, state.update]);
            generator.near(end.saturating_add(depth).saturating_sub(ahead))
        }
        4..=6 => {
            let later = generator.below(state.depth / 4 + 40);
            state.greatest_clock.saturating_add(later)
        }
        7..=9 => when_produced(generator, state),
        _ => when_spent(generator, state),
    }
}

/// About the moment at which a reference's end leaves the window.
fn when_spent(generator: &mut Generator, state: &State) -> u64 {
    if state.runs.is_empty() {
        return generator.near(state.clock_that_passes(state.next_tick));
    }
    let run = generator.pick(&state.runs);
    when_run_spent(generator, state, run)
}

/// About the moment at which an end of a run's references leaves the window, or its start.
fn when_run_spent(generator: &mut Generator, state: &State, run: Run) -> u64 {
    let ended = generator.between(0, run.count.min(1 << 40));
    let tick = run.start.saturating_add(run.duration.saturating_mul(ended));
    generator.near(state.clock_that_passes(tick))
}

/// About the moment at which the next tick comes into the window.
fn when_produced(generator: &mut Generator, state: &State) -> u64 {
    generator.near(state.clock_that_reaches(state.next_tick))
}
