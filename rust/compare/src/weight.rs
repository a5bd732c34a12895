//! How much memory an input asks of the plain side.
//!
//! It keeps every reference by itself, so an input that stores hundreds of millions of them must
//! not be given to it. What is estimated here decides only what is tried, never what is right.

use crate::state::State;

/// The most references that the plain program may have to keep.
pub const MOST_FOR_THE_PROGRAM: u64 = 200_000;

/// The most references that a reading among other calls may have the plain side keep.
pub const MOST_AMONG_CALLS: u64 = 1_000;

/// How many references a reading of these bytes would keep, at most.
pub fn kept_by_reading(file: &[u8]) -> u64 {
    State::after_reading(file).map_or(0, |state| state.kept())
}

/// True where the plain program can judge this input in little memory.
pub fn is_light_input(input: &[u8]) -> bool {
    let feed = input.iter().position(|byte| *byte == b'\n');
    let file = feed.map_or(&[][..], |feed| &input[feed + 1..]);
    kept_by_reading(file) <= MOST_FOR_THE_PROGRAM
}
