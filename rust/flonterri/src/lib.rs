//! Flonterri from Rust: how much of a live channel's rewind window is covered.
//!
//! A [`Timeline`] keeps the segment references of one representation in one period. Append
//! references as the packager makes them, trim as the clock moves on, and ask for a [`Verdict`]:
//! nothing needed, complete, or lacking from a tick on. The work is done by an archive whose
//! functions are proved to do what their contracts say, for every input; this crate owns the
//! memory, gives the numbers types, and turns refusal numbers into [`Refusal`].
//!
//! ```
//! use flonterri::{Head, Millis, Span, Tick, Timeline, Timescale, Verdict};
//!
//! # fn main() -> Result<(), flonterri::OpenError> {
//! // A thousand ticks a second, and a rewind window of ten seconds.
//! let head = Head {
//!     depth: Millis(10_000),
//!     ..Head::new(Timescale(1000))
//! };
//! let mut timeline = Timeline::open(head, Tick(0), 100)?;
//! timeline.append(Tick(0), Span(4000), 5)?;
//!
//! match timeline.verdict(Millis(20_001))? {
//!     Verdict::Complete { .. } => println!("the old packager may go"),
//!     verdict => println!("keep the old packager: {}", verdict),
//! }
//! assert_eq!(timeline.verdict(Millis(20_001))?.percent(), Some(99));
//! # Ok(())
//! # }
//! ```
//!
//! A gap, an overlap or anything else that is wrong is refused, and a refused call changes
//! nothing. A gap and an overlap tell how many ticks the start is off:
//!
//! ```
//! # use flonterri::{Distance, Head, Refusal, Span, Tick, Timeline, Timescale};
//! # fn main() -> Result<(), flonterri::OpenError> {
//! let mut timeline = Timeline::open(Head::new(Timescale(1000)), Tick(0), 100)?;
//! timeline.append(Tick(0), Span(4000), 5)?;
//! let before = timeline.clone();
//! let refused = timeline.append(Tick(24_000), Span(4000), 1);
//! assert_eq!(refused, Err(Refusal::Gap(Distance(4000))));
//! assert_eq!(timeline, before);
//! # Ok(())
//! # }
//! ```
//!
//! Every timeline agrees: its record and table are words that opening, reading or a change left,
//! or that [`Timeline::of_words`] has tested. Words that may be anything are for the calls of
//! [`words`].
//!
//! The archive is `libflonterri.a`, for x86-64; README.md says how it is built. Set
//! `FLONTERRI_LIB_DIR` where it does not lie in `target/staticlib` of the repository. A relative
//! folder is looked for from the folder in which cargo is called.

#![deny(missing_docs)]
#![deny(unsafe_code)]

mod answers;
mod refusal;
mod timeline;
mod units;
#[allow(unsafe_code)]
pub mod words;

pub use answers::{Availability, Reference, References, Run, Runs, Verdict};
pub use refusal::{OpenError, ReadError, Refusal, RefusedFile};
pub use timeline::{Head, Timeline};
pub use units::{Distance, Grain, Millis, Number, Span, Stamp, Tick, Timescale};
