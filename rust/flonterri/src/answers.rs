//! What a timeline answers: verdicts, availability, runs.

use std::fmt;
use std::iter::FusedIterator;
use std::slice::ChunksExact;

use crate::units::{narrow, Grain, Number, Span, Tick};
use crate::words::{availability_kind, availability_word, run_word, verdict_kind, verdict_word};
use crate::words::{AVAILABILITY_WORDS, RUN_WORDS, VERDICT_WORDS};

/// Whether the kept references cover what a window needs. Shown as the program `desk` writes it.
#[derive(Clone, Copy, Debug, PartialEq, Eq, Hash)]
pub enum Verdict {
    /// The window needs no tick.
    NothingNeeded,
    /// Every needed tick lies in a kept reference.
    Complete {
        /// How many ticks are needed.
        needed: u64,
    },
    /// A needed tick lies in no kept reference.
    Lacking {
        /// How many ticks are needed.
        needed: u64,
        /// How many of them lie in a kept reference.
        covered: u64,
        /// The lowest needed tick that lies in none.
        lowest: Tick,
        /// Covered x 100 / needed, rounded down: never 100.
        percent: u64,
    },
}

impl Verdict {
    /// True where every needed tick, and at least one, lies in a kept reference.
    ///
    /// ```
    /// use flonterri::Verdict;
    ///
    /// assert!(Verdict::Complete { needed: 10_000 }.is_complete());
    /// assert!(!Verdict::NothingNeeded.is_complete());
    /// ```
    pub fn is_complete(self) -> bool {
        matches!(self, Verdict::Complete { .. })
    }

    /// Percent of the needed ticks that are covered, rounded down; none where nothing is needed.
    ///
    /// ```
    /// use flonterri::Verdict;
    ///
    /// assert_eq!(Verdict::Complete { needed: 10_000 }.percent(), Some(100));
    /// assert_eq!(Verdict::NothingNeeded.percent(), None);
    /// ```
    pub fn percent(self) -> Option<u64> {
        match self {
            Verdict::NothingNeeded => None,
            Verdict::Complete { .. } => Some(100),
            Verdict::Lacking { percent, .. } => Some(percent),
        }
    }

    /// The verdict in the words of the archive.
    pub(crate) fn of_words(words: [u64; VERDICT_WORDS]) -> Verdict {
        let needed = words[verdict_word::NEEDED];
        match words[verdict_word::KIND] {
            verdict_kind::NOTHING_NEEDED => Verdict::NothingNeeded,
            verdict_kind::COMPLETE => Verdict::Complete { needed },
            _ => Verdict::Lacking {
                needed,
                covered: words[verdict_word::COVERED],
                lowest: Tick(words[verdict_word::LOWEST]),
                percent: words[verdict_word::PERCENT],
            },
        }
    }
}

impl fmt::Display for Verdict {
    fn fmt(&self, formatter: &mut fmt::Formatter<'_>) -> fmt::Result {
        match self {
            Verdict::NothingNeeded => write!(formatter, "nothing needed"),
            Verdict::Complete { needed } => write!(formatter, "complete {0}/{0} 100%", needed),
            Verdict::Lacking {
                needed,
                covered,
                lowest,
                percent,
            } => write!(
                formatter,
                "lacking {} {}/{} {}%",
                lowest, covered, needed, percent
            ),
        }
    }
}

/// When a reference is available: from the start, up to and not including the end.
#[derive(Clone, Copy, Debug, PartialEq, Eq, Hash)]
pub struct Availability {
    /// From here on.
    pub start: Grain,
    /// Up to here; none where it never ends.
    pub end: Option<Grain>,
}

impl Availability {
    /// The availability in the words of the archive.
    pub(crate) fn of_words(words: [i64; AVAILABILITY_WORDS]) -> Availability {
        Availability {
            start: Grain(words[availability_word::START]),
            end: match words[availability_word::KIND] {
                availability_kind::NEVER_ENDS => None,
                _ => Some(Grain(words[availability_word::END])),
            },
        }
    }
}

/// A run: references of one duration, each starting where the one before it ends.
#[derive(Clone, Copy, Debug, PartialEq, Eq, Hash)]
pub struct Run {
    /// Where the first reference starts.
    pub start: Tick,
    /// How long each of them lasts.
    pub duration: Span,
    /// How many there are.
    pub count: u64,
}

/// Runs, read from their part of the table; nothing is copied. [`Timeline::runs`] and
/// [`Timeline::touching`] give them.
///
/// [`Timeline::runs`]: crate::Timeline::runs
/// [`Timeline::touching`]: crate::Timeline::touching
#[derive(Clone, Debug)]
pub struct Runs<'table>(ChunksExact<'table, u64>);

impl<'table> Runs<'table> {
    /// The runs in a part of a timeline's table.
    pub(crate) fn of_words(part: &'table [u64]) -> Self {
        Runs(part.chunks_exact(RUN_WORDS))
    }
}

impl Iterator for Runs<'_> {
    type Item = Run;

    fn next(&mut self) -> Option<Run> {
        self.0.next().map(|words| Run {
            start: Tick(words[run_word::START]),
            duration: Span(narrow(words[run_word::DURATION], u32::MAX)),
            count: words[run_word::COUNT],
        })
    }

    fn size_hint(&self) -> (usize, Option<usize>) {
        self.0.size_hint()
    }
}

impl ExactSizeIterator for Runs<'_> {}

impl FusedIterator for Runs<'_> {}

/// A kept reference.
///
/// ```
/// use flonterri::{Number, Reference, Span, Tick};
///
/// let reference = Reference { number: Number(3), start: Tick(8000), duration: Span(4000) };
/// assert_eq!(reference.end(), Tick(12_000));
/// ```
#[derive(Clone, Copy, Debug, PartialEq, Eq, Hash)]
pub struct Reference {
    /// Its number.
    pub number: Number,
    /// Where it starts.
    pub start: Tick,
    /// How long it lasts.
    pub duration: Span,
}

impl Reference {
    /// The first tick behind it.
    ///
    /// ```
    /// use flonterri::{Number, Reference, Span, Tick};
    ///
    /// let reference = Reference { number: Number(0), start: Tick(111), duration: Span(40) };
    /// assert_eq!(reference.end(), Tick(151));
    /// ```
    pub fn end(self) -> Tick {
        Tick(self.start.0.saturating_add(self.duration.0.into()))
    }
}

/// Kept references, oldest first, read from the table; nothing is copied. [`Timeline::references`]
/// gives them.
///
/// [`Timeline::references`]: crate::Timeline::references
#[derive(Clone, Debug)]
pub struct References<'table> {
    runs: Runs<'table>,
    /// The run that is being read, less the references that were given.
    rest: Run,
    /// The number of the next reference.
    number: u64,
    /// How many are still to come.
    left: u64,
}

impl<'table> References<'table> {
    /// So many references in some runs, with the number of the first.
    pub(crate) fn of_runs(runs: Runs<'table>, number: Number, left: u64) -> Self {
        let rest = Run {
            start: Tick(0),
            duration: Span(0),
            count: 0,
        };
        References {
            runs,
            rest,
            number: number.0.into(),
            left,
        }
    }
}

impl Iterator for References<'_> {
    type Item = Reference;

    fn next(&mut self) -> Option<Reference> {
        while self.rest.count == 0 {
            self.rest = self.runs.next()?;
        }
        let reference = Reference {
            number: Number(narrow(self.number, u32::MAX)),
            start: self.rest.start,
            duration: self.rest.duration,
        };
        self.rest.start = reference.end();
        self.rest.count -= 1;
        self.number = self.number.saturating_add(1);
        self.left = self.left.saturating_sub(1);
        Some(reference)
    }

    fn size_hint(&self) -> (usize, Option<usize>) {
        let left = narrow(self.left, usize::MAX);
        (left, Some(left))
    }
}

impl ExactSizeIterator for References<'_> {}

impl FusedIterator for References<'_> {}
