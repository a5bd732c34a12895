//! Heads to open with.

use crate::generator::Generator;
use crate::limits;
use crate::opening::Opening;

/// A head within its limits, and a first tick near its offset.
pub fn opening(generator: &mut Generator) -> Opening {
    match generator.below(12) {
        0..=6 => small(generator),
        7..=9 => live(generator),
        10 => late(generator),
        _ => at_limits(generator),
    }
}

/// A head with one field over its limit, or a timescale of 0.
pub fn over_a_limit(generator: &mut Generator) -> Opening {
    let mut opening = opening(generator);
    let far = generator.one_in(3);
    let over = |limit: u64, generator: &mut Generator| {
        if far {
            generator.between(limit + 1, u64::MAX)
        } else {
            limit + 1
        }
    };
    match generator.below(8) {
        0 => {
            let over = limits::TIMESCALE as u32 + 1;
            opening.timescale = generator.pick(&[0, 0, over, u32::MAX]);
        }
        1 => opening.offset = over(limits::TICK, generator),
        2 => opening.start = over(limits::MILLIS, generator),
        3 => opening.duration = over(limits::MILLIS, generator),
        4 => opening.depth = over(limits::MILLIS, generator),
        5 => opening.update = over(limits::MILLIS, generator),
        // All ones are over the limit too, and not an update period that is absent.
        6 => opening.update = u64::MAX,
        _ => opening.first_tick = over(limits::TICK, generator),
    }
    opening
}

/// Short periods and windows, so that a few references come to every edge; their ends lie at a
/// tick or within one. The ticks stand low, about 2^32, or near the limit.
fn small(generator: &mut Generator) -> Opening {
    let timescale: u32 = generator.pick(&[1, 3, 7, 40, 90, 300, 999, 1000, 1001, 3000]);
    let millis = |ticks: u64, generator: &mut Generator| match ticks {
        0 => 0,
        ticks => ticks * 1000 / u64::from(timescale) + generator.below(3),
    };
    let period = generator.pick(&[0, 0, 0, 1, 2, 20, 60, 150, 300]);
    let depth = generator.pick(&[0, 0, 1, 5, 20, 60, 100]);
    let update = generator.pick(&[0, 0, 0, 1, 5, 20, 60]);
    let offset =
        generator.pick(&[0, 0, 0, (1 << 32) - 60, limits::TICK - 150]) + generator.below(80);
    Opening {
        timescale,
        offset,
        start: generator.pick(&[0, 0, 1, 100, 333]),
        duration: millis(period, generator),
        depth: millis(depth, generator),
        first_number: first_number(generator),
        update: millis(update, generator),
        first_tick: match generator.below(4) {
            0 => offset.saturating_sub(generator.below(40)),
            1 => offset + generator.below(20),
            _ => offset,
        },
    }
}

/// A channel as it is in the field.
fn live(generator: &mut Generator) -> Opening {
    let offset = generator.pick(&[0, 0, 1 << 33, 162_000_000_000]);
    Opening {
        timescale: generator.pick(&[1000, 48_000, 90_000, 10_000_000]),
        offset,
        start: generator.pick(&[0, 3_600_000, 1_700_000_000]),
        duration: generator.pick(&[0, 0, 60_000, 3_600_000]),
        depth: generator.pick(&[0, 10_000, 60_000, 7_200_000]),
        first_number: first_number(generator),
        update: generator.pick(&[0, 0, 2_000, 30_000]),
        first_tick: offset + generator.pick(&[0, 0, 1, 100_000]),
    }
}

/// A late offset: whatever starts near tick 0 ends before the period start and is spent at once.
fn late(generator: &mut Generator) -> Opening {
    Opening {
        timescale: generator.pick(&[1, 1000, 90_000]),
        offset: generator.pick(&[1 << 31, 1 << 32, 1 << 40, limits::TICK]),
        start: generator.pick(&[0, 5]),
        duration: generator.pick(&[0, 0, 40, 1_000]),
        depth: generator.pick(&[0, 10, 10_000]),
        first_number: generator.pick(&[0, 1, (1 << 31) - 1, 1 << 31]),
        update: generator.pick(&[0, 0, 1, 10_000]),
        first_tick: generator.pick(&[0, 0, 1]),
    }
}

/// Each field at an end of its range, or anywhere in it.
fn at_limits(generator: &mut Generator) -> Opening {
    let tick = |generator: &mut Generator| {
        let any = generator.below(limits::TICK);
        generator.pick(&[0, 1, limits::TICK - 1, limits::TICK, limits::TICK, any])
    };
    let millis = |generator: &mut Generator| {
        let any = generator.below(limits::MILLIS);
        generator.pick(&[0, 0, 1, limits::MILLIS - 1, limits::MILLIS, any])
    };
    let offset = tick(generator);
    Opening {
        timescale: generator.pick(&[1, 2, 1000, 9_999_999, 10_000_000]),
        offset,
        start: millis(generator),
        duration: millis(generator),
        depth: millis(generator),
        first_number: first_number(generator),
        update: millis(generator),
        first_tick: match generator.below(3) {
            0 => tick(generator),
            _ => offset,
        },
    }
}

fn first_number(generator: &mut Generator) -> u32 {
    match generator.below(24) {
        0 => u32::MAX,
        1 | 2 => u32::MAX - generator.below(20) as u32,
        _ => generator.pick(&[0, 0, 1, 1000, 1 << 31]),
    }
}
