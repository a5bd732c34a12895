//! Ticks, milliseconds, grains and numbers, each a type of its own, so that none is taken for
//! another. The types hold any number of their width; the calls judge the limits and refuse.

use std::fmt;

/// Ticks a second: 1 to [`Timescale::LARGEST`].
#[derive(Clone, Copy, Debug, PartialEq, Eq, PartialOrd, Ord, Hash)]
pub struct Timescale(pub u32);

impl Timescale {
    /// The greatest timescale: 10,000,000 ticks a second.
    pub const LARGEST: Timescale = Timescale(10_000_000);
}

/// A position in ticks. What a timeline keeps is at most [`Tick::LARGEST`]; a tick that a verdict
/// names may lie above it.
#[derive(Clone, Copy, Debug, Default, PartialEq, Eq, PartialOrd, Ord, Hash)]
pub struct Tick(pub u64);

impl Tick {
    /// The greatest position that a timeline keeps: 2^52 - 1.
    pub const LARGEST: Tick = Tick((1 << 52) - 1);
}

/// The low 32 bits of a tick, as some recorders send them.
#[derive(Clone, Copy, Debug, Default, PartialEq, Eq, PartialOrd, Ord, Hash)]
pub struct Stamp(pub u32);

/// How many ticks a start that does not join lies from the next tick, after it or before it: 1 or
/// more.
#[derive(Clone, Copy, Debug, PartialEq, Eq, PartialOrd, Ord, Hash)]
pub struct Distance(pub u64);

/// How many ticks a reference lasts: 1 or more.
#[derive(Clone, Copy, Debug, PartialEq, Eq, PartialOrd, Ord, Hash)]
pub struct Span(pub u32);

/// Whole milliseconds: period start, duration, window depth, update period and clock. At most
/// [`Millis::LARGEST`].
#[derive(Clone, Copy, Debug, Default, PartialEq, Eq, PartialOrd, Ord, Hash)]
pub struct Millis(pub u64);

impl Millis {
    /// The most milliseconds: 100,000,000,000.
    pub const LARGEST: Millis = Millis(100_000_000_000);
}

/// The number of a reference.
#[derive(Clone, Copy, Debug, Default, PartialEq, Eq, PartialOrd, Ord, Hash)]
pub struct Number(pub u32);

/// A signed point in grains, counted from availabilityStartTime. A tick has 1000 grains and a
/// millisecond has as many as the timescale, so a second has 1000 x timescale.
#[derive(Clone, Copy, Debug, Default, PartialEq, Eq, PartialOrd, Ord, Hash)]
pub struct Grain(pub i64);

/// A word of a timeline in a type that is narrower. Every timeline agrees, and agreement keeps each
/// word that is asked for so within the type, so the widest is never answered for a wider word; it
/// stands there because this crate neither panics nor cuts bits off.
pub(crate) fn narrow<T: TryFrom<u64>>(word: u64, widest: T) -> T {
    T::try_from(word).unwrap_or(widest)
}

/// Each unit is shown as its number.
macro_rules! shown_as_its_number {
    ($($unit:ident)*) => {
        $(impl fmt::Display for $unit {
            fn fmt(&self, formatter: &mut fmt::Formatter<'_>) -> fmt::Result {
                self.0.fmt(formatter)
            }
        })*
    };
}

shown_as_its_number!(Timescale Tick Stamp Distance Span Millis Number Grain);
