//! A plain implementation of the desk's paper, written from the paper alone.
//!
//! It exists to be compared with the verified implementation, so each definition stands here as
//! literally as it can: the kept references are a plain vector, all arithmetic is in 128 bits, and
//! nothing is done for speed. Headings of the paper are cited in quotation marks.
//!
//! | module | headings of the paper |
//! |---|---|
//! | [`units`] | "Units" |
//! | [`refusal`] | "Refusal numbers" |
//! | [`mod@reference`] | "Record and table" (references and runs) |
//! | [`window`] | "Window, needed, spent" |
//! | [`timeline`] | "Append and trim", opening |
//! | [`record`] | "Record and table" (words and their agreement) |
//! | [`verdict`] | "Verdict and availability" (verdicts, percent) |
//! | [`availability`] | "Verdict and availability" (availability) |
//! | [`edge`] | "Verdict and availability" (the covered edge) |
//! | [`touching`] | "Verdict and availability" (the runs that touch a span) |
//! | [`mod@file`] | "The file" |
//! | [`desk`] | "The file" (the program) |
//! | [`face`] | all of it, over words and numbers |

#![forbid(unsafe_code)]
#![warn(missing_docs)]

pub mod availability;
pub mod desk;
pub mod edge;
pub mod face;
pub mod file;
pub mod record;
pub mod reference;
pub mod refusal;
pub mod timeline;
pub mod touching;
pub mod units;
pub mod verdict;
pub mod window;

#[cfg(test)]
mod tests;
