//! The comparison must be able to fail: wrong answers are planted, and it must find each. The
//! planted side stands against the plain one, so these tests say nothing of the archive.

mod inputs;
mod kinds;
mod planted;
mod programs;
mod small_parts;
mod twin;
