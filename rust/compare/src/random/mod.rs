//! Random cases, each made from a seed: what is usual, what is hostile, and every limit.

pub mod appends;
pub mod clocks;
pub mod damage;
pub mod files;
pub mod heads;
pub mod inputs;
pub mod mutations;
pub mod steps;
