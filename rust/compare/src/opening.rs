//! What a timeline is opened with.

/// The fields of a head, and the first tick.
#[derive(Clone, Copy, Debug, PartialEq, Eq)]
pub struct Opening {
    /// Ticks a second.
    pub timescale: u32,
    /// Presentation time offset.
    pub offset: u64,
    /// Period start.
    pub start: u64,
    /// Period duration; 0: end unknown.
    pub duration: u64,
    /// Window depth; 0: none given.
    pub depth: u64,
    /// First number.
    pub first_number: u32,
    /// Update period.
    pub update: u64,
    /// First tick.
    pub first_tick: u64,
}

impl Opening {
    /// A tick a millisecond, no known end, no depth, no update period, and 0 in every other field.
    pub const OPEN_ENDED: Opening = Opening {
        timescale: 1000,
        offset: 0,
        start: 0,
        duration: 0,
        depth: 0,
        first_number: 0,
        update: 0,
        first_tick: 0,
    };
}
