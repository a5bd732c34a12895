//! The tests, a file a subject.

mod agreement;
mod by_hand;
mod closed_forms;
mod desk;
mod expected_errors;
mod files;
mod limits;
mod literal;
mod orders;
mod refusals;
mod sequences;
mod support;
