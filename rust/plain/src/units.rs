//! Ticks, milliseconds, grains and numbers, each its own type with its own limits.
//! Paper: "Units".

use std::ops::{Add, Sub};

/// Grains in a tick: a grain is 1/(1000 x timescale) second.
const GRAINS_IN_A_TICK: i128 = 1000;

/// Ticks a second: 1 to 10,000,000.
#[derive(Clone, Copy, Debug, PartialEq, Eq)]
pub struct Timescale(u32);

impl Timescale {
    /// The greatest timescale.
    pub const MAX: u32 = 10_000_000;

    /// The timescale, if it is not 0 and within its limit.
    pub fn new(ticks_a_second: u64) -> Option<Self> {
        u32::try_from(ticks_a_second)
            .ok()
            .filter(|value| (1..=Self::MAX).contains(value))
            .map(Timescale)
    }

    /// The number of ticks a second.
    pub fn get(self) -> u32 {
        self.0
    }

    /// A stretch of whole milliseconds in grains: a millisecond is timescale grains. The number
    /// is not limited, because later milliseconds above the clock's limit count for "spent".
    pub fn grains_of_millis(self, millis: i128) -> Grains {
        Grains(millis * i128::from(self.0))
    }

    /// The first whole millisecond that lies after a point.
    pub fn first_millisecond_after(self, point: Grains) -> Grains {
        let millis_before = point.0.div_euclid(i128::from(self.0));
        self.grains_of_millis(millis_before + 1)
    }
}

/// Whole milliseconds (period start, duration, window depth, update period, clock): at most
/// 100,000,000,000.
#[derive(Clone, Copy, Debug, PartialEq, Eq, PartialOrd, Ord)]
pub struct Millis(u64);

impl Millis {
    /// The most milliseconds.
    pub const MAX: u64 = 100_000_000_000;

    /// No milliseconds.
    pub const ZERO: Millis = Millis(0);

    /// The milliseconds, if within their limit.
    pub fn new(millis: u64) -> Option<Self> {
        Some(millis).filter(|value| *value <= Self::MAX).map(Millis)
    }

    /// The number of milliseconds.
    pub fn get(self) -> u64 {
        self.0
    }

    /// The same stretch in grains.
    pub fn grains(self, timescale: Timescale) -> Grains {
        timescale.grains_of_millis(i128::from(self.0))
    }
}

/// A tick position (offset, start, end of a reference): at most 2^52 - 1.
#[derive(Clone, Copy, Debug, PartialEq, Eq, PartialOrd, Ord)]
pub struct Tick(u64);

impl Tick {
    /// The greatest tick position.
    pub const MAX: u64 = (1 << 52) - 1;

    /// The tick, if within its limit.
    pub fn new(tick: u64) -> Option<Self> {
        Some(tick).filter(|value| *value <= Self::MAX).map(Tick)
    }

    /// The tick as a number.
    pub fn get(self) -> u64 {
        self.0
    }

    /// The same tick, without the limit.
    pub fn wide(self) -> WideTick {
        WideTick(i128::from(self.0))
    }
}

/// A tick position without the limit: needed ticks may lie above it, and an end that has not been
/// judged yet may too.
#[derive(Clone, Copy, Debug, PartialEq, Eq, PartialOrd, Ord)]
pub struct WideTick(i128);

impl WideTick {
    /// Any position.
    pub fn new(tick: i128) -> Self {
        WideTick(tick)
    }

    /// The position as a number.
    pub fn get(self) -> i128 {
        self.0
    }

    /// The position so many ticks later.
    pub fn later(self, ticks: i128) -> Self {
        WideTick(self.0 + ticks)
    }

    /// How many ticks this position lies after another; negative where it lies before.
    pub fn ticks_since(self, other: WideTick) -> i128 {
        self.0 - other.0
    }

    /// The same tick under its limit, if it is not negative and not over the limit.
    pub fn limited(self) -> Option<Tick> {
        u64::try_from(self.0).ok().and_then(Tick::new)
    }
}

/// How many ticks a start that does not join stands from the next tick, on either side: at least 1.
#[derive(Clone, Copy, Debug, PartialEq, Eq, PartialOrd, Ord, Hash)]
pub struct Distance(u64);

impl Distance {
    /// The distance, if it is not 0.
    pub fn new(ticks: u64) -> Option<Self> {
        Some(ticks).filter(|value| *value > 0).map(Distance)
    }

    /// The number of ticks.
    pub fn get(self) -> u64 {
        self.0
    }
}

/// The duration of a reference: 1 to 4,294,967,295 ticks.
#[derive(Clone, Copy, Debug, PartialEq, Eq)]
pub struct RefDuration(u32);

impl RefDuration {
    /// The duration, if it is not 0 and fits 32 bits.
    pub fn new(ticks: u64) -> Option<Self> {
        u32::try_from(ticks)
            .ok()
            .filter(|value| *value > 0)
            .map(RefDuration)
    }

    /// The number of ticks.
    pub fn get(self) -> u32 {
        self.0
    }
}

/// The number of a reference: 0 to 4,294,967,295.
#[derive(Clone, Copy, Debug, PartialEq, Eq, PartialOrd, Ord)]
pub struct Number(u32);

impl Number {
    /// Any number of 32 bits.
    pub fn new(number: u32) -> Self {
        Number(number)
    }

    /// The number.
    pub fn get(self) -> u32 {
        self.0
    }
}

/// A point or a stretch in signed grains; points count from availabilityStartTime.
#[derive(Clone, Copy, Debug, PartialEq, Eq, PartialOrd, Ord)]
pub struct Grains(i128);

impl Grains {
    /// So many grains.
    pub fn new(grains: i128) -> Self {
        Grains(grains)
    }

    /// A stretch of so many ticks: a tick is 1000 grains.
    pub fn of_ticks(ticks: i128) -> Self {
        Grains(ticks * GRAINS_IN_A_TICK)
    }

    /// The number of grains.
    pub fn get(self) -> i128 {
        self.0
    }

    /// The whole ticks in this stretch, rounded down (towards minus infinity).
    pub fn ticks_down(self) -> i128 {
        self.0.div_euclid(GRAINS_IN_A_TICK)
    }

    /// The whole ticks in this stretch, rounded up (towards plus infinity).
    pub fn ticks_up(self) -> i128 {
        -(-self.0).div_euclid(GRAINS_IN_A_TICK)
    }
}

impl Add for Grains {
    type Output = Grains;

    fn add(self, other: Grains) -> Grains {
        Grains(self.0 + other.0)
    }
}

impl Sub for Grains {
    type Output = Grains;

    fn sub(self, other: Grains) -> Grains {
        Grains(self.0 - other.0)
    }
}

/// A half-open stretch of points, of grains or of ticks: `from` belongs to it, `to` does not.
/// It is empty where `from` is at or after `to`.
#[derive(Clone, Copy, Debug, PartialEq, Eq)]
pub struct Span<T> {
    /// The first point.
    pub from: T,
    /// One past the last point.
    pub to: T,
}

impl<T: Ord + Copy> Span<T> {
    /// True where no point belongs to the span.
    pub fn is_empty(self) -> bool {
        self.from >= self.to
    }

    /// True where the point belongs to the span.
    pub fn holds(self, point: T) -> bool {
        self.from <= point && point < self.to
    }

    /// What belongs to both spans.
    pub fn common(self, other: Self) -> Self {
        Span {
            from: self.from.max(other.from),
            to: self.to.min(other.to),
        }
    }

    /// True where the two have a common stretch of positive length; meeting is not overlapping.
    pub fn overlaps(self, other: Self) -> bool {
        !self.common(other).is_empty()
    }
}

impl Span<WideTick> {
    /// How many ticks belong to the span.
    pub fn count(self) -> u64 {
        u64::try_from(self.to.ticks_since(self.from).max(0)).expect("a span of at most 2^64 ticks")
    }
}
