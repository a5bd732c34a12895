//! The limits of the paper, under "Units" and "Refusal numbers".

/// The greatest tick position: 2^52 - 1.
pub const TICK: u64 = (1 << 52) - 1;

/// The most milliseconds.
pub const MILLIS: u64 = 100_000_000_000;

/// The greatest timescale.
pub const TIMESCALE: u64 = 10_000_000;

/// The most references ever accepted: 2^31.
pub const ACCEPTED: u64 = 1 << 31;

/// The most that first number plus accepted may be.
pub const NUMBER: u64 = (1 << 32) - 1;

/// Words of the program's table: 1,024 runs.
pub const PROGRAM_TABLE_WORDS: usize = 3072;
