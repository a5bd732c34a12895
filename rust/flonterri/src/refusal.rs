//! Why a call is refused, and what else can stand in the way of a timeline.

use std::error::Error;
use std::fmt;

use crate::units::Distance;

/// Why a call is refused, a case for each number. A refused call of a
/// [`Timeline`](crate::Timeline) changes nothing; what one of [`words`](crate::words) leaves is said
/// there.
///
/// ```
/// use flonterri::{Distance, Refusal};
///
/// let gap = Refusal::Gap(Distance(9));
/// assert_eq!((gap.number(), gap.distance()), (4, Some(Distance(9))));
/// assert_eq!(gap.to_string(), "refusal 4: the start lies after the next tick by 9");
/// assert_eq!(Refusal::NoRunLeft.to_string(), "refusal 9: the table has no run left");
/// ```
#[derive(Clone, Copy, Debug, PartialEq, Eq, PartialOrd, Ord, Hash)]
#[non_exhaustive]
pub enum Refusal {
    /// 1: a head field or the first tick is over its limit, or the timescale is 0.
    OverLimit,
    /// 2: record and table disagree. Every [`Timeline`](crate::Timeline) agrees, so of its calls
    /// [`of_words`](crate::Timeline::of_words) alone answers this.
    Disagreement,
    /// 3: a duration or a count of 0.
    NothingGiven,
    /// 4: the start lies after the next tick, by so many ticks.
    Gap(Distance),
    /// 5: the start lies before the next tick, by so many ticks. For a stamp they may be more than the
    /// next tick has: then it names no tick at all.
    Overlap(Distance),
    /// 6: an end lies over the largest tick.
    TickLimit,
    /// 7: more than 2^31 references accepted, or a number over 2^32 - 1.
    CountLimit,
    /// 8: a reference starts at or after a known period end.
    PastEnd,
    /// 9: a new run is needed and the table has none left; see
    /// [`grow`](crate::Timeline::grow).
    NoRunLeft,
    /// 10: the clock is over its limit.
    ClockLimit,
    /// 11: the clock of a verdict lies before the greatest clock.
    EarlierClock,
    /// 12: a file is to be written and no run is kept.
    NothingKept,
    /// 13: the number is not that of a kept reference.
    NotKept,
    /// 14: a span ends at or before its begin.
    EmptySpan,
    /// 15: the output is shorter than the file.
    ShortOutput,
    /// 16: a line is ill-formed, unended, missing, or stands behind the end.
    BadLine,
    /// 17: a line is out of order, or the end line counts wrongly.
    BadOrder,
    /// 18: a negative r and no known period end.
    NoEndToReach,
    /// 19: the whole period is asked for and its end is unknown.
    EndUnknown,
}

impl Refusal {
    /// The number of the refusal.
    ///
    /// ```
    /// assert_eq!(flonterri::Refusal::NoRunLeft.number(), 9);
    /// ```
    pub fn number(self) -> u32 {
        self.number_and_message().0
    }

    /// The refusal of a number, if there is one. The distance is what a call of
    /// [`words`](crate::words) has put into its `out`; it is kept with 4 and 5, and with no other.
    ///
    /// ```
    /// use flonterri::{Distance, Refusal};
    ///
    /// let distance = Distance(9);
    /// assert_eq!(Refusal::from_number(4, distance), Some(Refusal::Gap(distance)));
    /// assert_eq!(Refusal::from_number(9, distance), Some(Refusal::NoRunLeft));
    /// assert_eq!(Refusal::from_number(0, distance), None);
    /// ```
    pub fn from_number(number: u32, distance: Distance) -> Option<Refusal> {
        Some(match number {
            1 => Refusal::OverLimit,
            2 => Refusal::Disagreement,
            3 => Refusal::NothingGiven,
            4 => Refusal::Gap(distance),
            5 => Refusal::Overlap(distance),
            6 => Refusal::TickLimit,
            7 => Refusal::CountLimit,
            8 => Refusal::PastEnd,
            9 => Refusal::NoRunLeft,
            10 => Refusal::ClockLimit,
            11 => Refusal::EarlierClock,
            12 => Refusal::NothingKept,
            13 => Refusal::NotKept,
            14 => Refusal::EmptySpan,
            15 => Refusal::ShortOutput,
            16 => Refusal::BadLine,
            17 => Refusal::BadOrder,
            18 => Refusal::NoEndToReach,
            19 => Refusal::EndUnknown,
            _ => return None,
        })
    }

    /// How far the start lies from the next tick; none but [`Gap`](Refusal::Gap) and
    /// [`Overlap`](Refusal::Overlap) tell it.
    ///
    /// ```
    /// use flonterri::{Distance, Refusal};
    ///
    /// assert_eq!(Refusal::Overlap(Distance(1)).distance(), Some(Distance(1)));
    /// assert_eq!(Refusal::NoRunLeft.distance(), None);
    /// ```
    pub fn distance(self) -> Option<Distance> {
        match self {
            Refusal::Gap(distance) | Refusal::Overlap(distance) => Some(distance),
            _ => None,
        }
    }

    /// What is wrong, in words.
    ///
    /// ```
    /// assert_eq!(flonterri::Refusal::NoRunLeft.message(), "the table has no run left");
    /// ```
    pub fn message(self) -> &'static str {
        self.number_and_message().1
    }

    fn number_and_message(self) -> (u32, &'static str) {
        match self {
            Refusal::OverLimit => (
                1,
                "a head field or the first tick is over its limit, or the timescale is 0",
            ),
            Refusal::Disagreement => (2, "record and table disagree"),
            Refusal::NothingGiven => (3, "the duration or the count is 0"),
            Refusal::Gap(_) => (4, "the start lies after the next tick"),
            Refusal::Overlap(_) => (5, "the start lies before the next tick"),
            Refusal::TickLimit => (6, "an end lies over the largest tick"),
            Refusal::CountLimit => (7, "too many references, or a number over its limit"),
            Refusal::PastEnd => (8, "a reference starts at or after the period end"),
            Refusal::NoRunLeft => (9, "the table has no run left"),
            Refusal::ClockLimit => (10, "the clock is over its limit"),
            Refusal::EarlierClock => (11, "the clock lies before the greatest clock"),
            Refusal::NothingKept => (12, "nothing is kept that could be written"),
            Refusal::NotKept => (13, "no kept reference has this number"),
            Refusal::EmptySpan => (14, "the span ends at or before its begin"),
            Refusal::ShortOutput => (15, "the output is shorter than the file"),
            Refusal::BadLine => (
                16,
                "the line is ill-formed, unended or missing, or stands behind the end",
            ),
            Refusal::BadOrder => (
                17,
                "the line is out of order, or the end line counts wrongly",
            ),
            Refusal::NoEndToReach => (18, "a negative r, and the period end is unknown"),
            Refusal::EndUnknown => (19, "the period end is unknown"),
        }
    }

    /// The outcome that a number of the archive stands for, 0 where accepted; of a call that never
    /// answers 4 or 5.
    pub(crate) fn judge(number: u32) -> Result<(), Refusal> {
        Refusal::judge_start(number, 0)
    }

    /// The same of a call that may, with the word that tells the distance.
    pub(crate) fn judge_start(number: u32, distance: u64) -> Result<(), Refusal> {
        if number == 0 {
            return Ok(());
        }
        let refusal = Refusal::from_number(number, Distance(distance));
        Err(refusal.expect("a number that the archive has"))
    }
}

impl fmt::Display for Refusal {
    fn fmt(&self, formatter: &mut fmt::Formatter<'_>) -> fmt::Result {
        let (number, message) = self.number_and_message();
        write!(formatter, "refusal {}: {}", number, message)?;
        match self.distance() {
            Some(distance) => write!(formatter, " by {}", distance),
            None => Ok(()),
        }
    }
}

impl Error for Refusal {}

/// A file that is refused: why, and at which line.
///
/// ```
/// use flonterri::{Distance, Refusal, RefusedFile};
///
/// let refused = RefusedFile { refusal: Refusal::Gap(Distance(9)), line: 3 };
/// assert_eq!(refused.to_string(), "line 3: refusal 4: the start lies after the next tick by 9");
/// ```
#[derive(Clone, Copy, Debug, PartialEq, Eq, PartialOrd, Ord, Hash)]
pub struct RefusedFile {
    /// Why.
    pub refusal: Refusal,
    /// The first refused line, counted from 1. A missing line has the number that it would have
    /// had.
    pub line: u64,
}

impl fmt::Display for RefusedFile {
    fn fmt(&self, formatter: &mut fmt::Formatter<'_>) -> fmt::Result {
        write!(formatter, "line {}: {}", self.line, self.refusal)
    }
}

impl Error for RefusedFile {
    fn source(&self) -> Option<&(dyn Error + 'static)> {
        Some(&self.refusal)
    }
}

/// Why a timeline was not opened: refused, or no memory.
///
/// A [`Refusal`] becomes one, so that `?` serves for an opening and for the calls after it:
///
/// ```
/// use flonterri::{Head, OpenError, Refusal, Span, Tick, Timeline, Timescale};
///
/// fn opened(first: Tick, runs: usize) -> Result<Timeline, OpenError> {
///     let mut timeline = Timeline::open(Head::new(Timescale(1000)), first, runs)?;
///     timeline.append(first, Span(4000), 5)?;
///     Ok(timeline)
/// }
/// assert!(opened(Tick(0), 100).is_ok());
/// assert_eq!(opened(Tick(1 << 52), 100), Err(OpenError::Refused(Refusal::OverLimit)));
/// let runs = usize::MAX;
/// assert_eq!(opened(Tick(0), runs), Err(OpenError::NoMemory { runs }));
/// ```
#[derive(Clone, Copy, Debug, PartialEq, Eq, PartialOrd, Ord, Hash)]
pub enum OpenError<Why = Refusal> {
    /// What was given is refused.
    Refused(Why),
    /// There is no memory for a table of so many runs.
    NoMemory {
        /// How many were asked for.
        runs: usize,
    },
}

/// Why a file was not read: refused at a line, or no memory.
///
/// ```
/// use flonterri::{ReadError, Refusal, RefusedFile, Timeline};
///
/// let refused = RefusedFile { refusal: Refusal::BadLine, line: 1 };
/// assert_eq!(Timeline::read(b"not a file\n", 10), Err(ReadError::Refused(refused)));
/// ```
pub type ReadError = OpenError<RefusedFile>;

impl<Why> From<Why> for OpenError<Why> {
    fn from(why: Why) -> Self {
        OpenError::Refused(why)
    }
}

impl<Why: fmt::Display> fmt::Display for OpenError<Why> {
    fn fmt(&self, formatter: &mut fmt::Formatter<'_>) -> fmt::Result {
        match self {
            OpenError::Refused(why) => why.fmt(formatter),
            OpenError::NoMemory { runs } => {
                write!(formatter, "no memory for a table of {} runs", runs)
            }
        }
    }
}

impl<Why: Error> Error for OpenError<Why> {
    fn source(&self) -> Option<&(dyn Error + 'static)> {
        match self {
            // It is shown as the refusal itself, so its source is the refusal's.
            OpenError::Refused(why) => why.source(),
            OpenError::NoMemory { .. } => None,
        }
    }
}
