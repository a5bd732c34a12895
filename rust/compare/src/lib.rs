//! Holds the proved program and archive against the plain implementation, and times both.
//!
//! Nothing here is proved. A difference means that one of the two is wrong, or that this program
//! is.

#![deny(missing_docs)]
#![forbid(unsafe_code)]

pub mod arguments;
pub mod bench;
pub mod face;
pub mod report;

mod by_hand;
mod calls;
mod generator;
mod inputs;
mod kinds;
mod limits;
mod lines;
mod opening;
mod program;
mod random;
mod sequence;
mod shorten;
mod state;
mod step;
mod tally;
mod text;
mod twin;
mod weight;

#[cfg(test)]
mod tests;
