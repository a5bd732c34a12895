//! A timeline that owns its record and its table.

use std::ops::Range;

use crate::answers::{Availability, References, Runs, Verdict};
use crate::refusal::{OpenError, ReadError, Refusal, RefusedFile};
use crate::units::{narrow, Millis, Number, Span, Stamp, Tick, Timescale};
use crate::words::{self, edge_kind, edge_word, full_tick_kind, full_tick_word};
use crate::words::{read_word, touching_word, word, RECORD_WORDS, RUN_WORDS};

/// Bytes of a written head line and end line, with their line feeds.
const HEAD_AND_END_BYTES: usize = 99 + 11;

/// Bytes of a written S line, with its line feed.
const S_BYTES: usize = 35;

/// What a timeline is opened with.
///
/// ```
/// use flonterri::{Head, Millis, Number, Timescale};
///
/// let head = Head {
///     depth: Millis(10_000),
///     first_number: Number(1),
///     ..Head::new(Timescale(1000))
/// };
/// assert_eq!(head.duration, Millis(0));
/// ```
///
/// A player takes a live manifest and goes by it until the update period is over. So its references
/// must reach that far past the clock, or the picture freezes although all up to the clock is there:
///
/// ```
/// # use flonterri::{Head, Millis, Span, Tick, Timeline, Timescale};
/// # fn main() -> Result<(), flonterri::OpenError> {
/// let up_to_the_clock = Head { depth: Millis(10_000), ..Head::new(Timescale(1000)) };
/// let two_seconds_more = Head { update: Millis(2000), ..up_to_the_clock };
/// let verdict = |head, clock| -> Result<String, flonterri::OpenError> {
///     let mut timeline = Timeline::open(head, Tick(0), 10)?;
///     timeline.append(Tick(0), Span(4000), 5)?;
///     Ok(timeline.verdict(clock)?.to_string())
/// };
/// // Twenty seconds are there. Who asks at 18.001 s goes by them until 20.001 s.
/// let clock = Millis(18_001);
/// assert_eq!(verdict(up_to_the_clock, clock)?, "complete 10000/10000 100%");
/// assert_eq!(verdict(two_seconds_more, clock)?, "lacking 20000 11999/12000 99%");
/// assert_eq!(verdict(two_seconds_more, Millis(18_000))?, "complete 12000/12000 100%");
/// # Ok(())
/// # }
/// ```
#[derive(Clone, Copy, Debug, PartialEq, Eq, Hash)]
pub struct Head {
    /// Ticks a second.
    pub timescale: Timescale,
    /// Presentation time offset: the tick that stands at the period start.
    pub offset: Tick,
    /// Period start, counted from availabilityStartTime.
    pub start: Millis,
    /// Period duration; 0: the end is unknown.
    pub duration: Millis,
    /// Window depth; 0: none is given, and the window reaches back to the period start.
    pub depth: Millis,
    /// The number of the first reference.
    pub first_number: Number,
    /// Update period: how far past the clock the window reaches; 0: it ends at the clock.
    pub update: Millis,
}

impl Head {
    /// A head with this timescale and 0 in every other field: a period that starts at
    /// availabilityStartTime, with no known end and no depth, and a window that ends at the clock.
    ///
    /// ```
    /// use flonterri::{Head, Millis, Timescale};
    ///
    /// let head = Head::new(Timescale(90_000));
    /// assert_eq!((head.timescale, head.depth), (Timescale(90_000), Millis(0)));
    /// assert_eq!(head.update, Millis(0));
    /// ```
    pub fn new(timescale: Timescale) -> Head {
        Head {
            timescale,
            offset: Tick(0),
            start: Millis(0),
            duration: Millis(0),
            depth: Millis(0),
            first_number: Number(0),
            update: Millis(0),
        }
    }
}

/// The segment references of one representation in one period.
///
/// Its record and table agree, whichever way it came: no call of it is refused for
/// [`Disagreement`](Refusal::Disagreement), and what its words hold is within the limits.
///
/// ```
/// use flonterri::{Head, Millis, Number, Span, Tick, Timeline, Timescale, Verdict};
///
/// # fn main() -> Result<(), flonterri::OpenError> {
/// let head = Head {
///     depth: Millis(10_000),
///     first_number: Number(1),
///     ..Head::new(Timescale(1000))
/// };
/// let mut timeline = Timeline::open(head, Tick(0), 10)?;
/// timeline.append(Tick(0), Span(4000), 5)?;
///
/// let verdict = timeline.verdict(Millis(14_000))?;
/// assert_eq!(verdict, Verdict::Complete { needed: 10_000 });
/// assert_eq!(verdict.to_string(), "complete 10000/10000 100%");
///
/// timeline.trim(Millis(18_000))?;
/// assert_eq!(timeline.dropped(), 2);
/// assert_eq!(timeline.first_kept_number(), Number(3));
/// # Ok(())
/// # }
/// ```
#[derive(Clone, Debug, PartialEq, Eq, Hash)]
pub struct Timeline {
    record: [u64; RECORD_WORDS],
    table: Vec<u64>,
}

/// The calls that change. A refused call changes nothing.
impl Timeline {
    /// Opens a timeline with room for so many runs. Refusal [`OverLimit`](Refusal::OverLimit), or
    /// [`NoMemory`](OpenError::NoMemory) for so many runs.
    ///
    /// How many: references of one duration that follow each other share a run, so where all
    /// segments last as long, a few runs hold any number of them. Each change of duration costs a
    /// run. Durations that alternate cost one for each reference: then take the window depth and
    /// what lies between two trims, by the shortest duration. A run is 24 bytes, and every call
    /// looks at the whole table. An append to a full one is refused with
    /// [`NoRunLeft`](Refusal::NoRunLeft), and [`grow`](Timeline::grow) makes it longer.
    ///
    /// ```
    /// # use flonterri::{Head, Refusal, OpenError, Tick, Timeline, Timescale};
    /// # fn main() -> Result<(), flonterri::OpenError> {
    /// let timeline = Timeline::open(Head::new(Timescale(1000)), Tick(0), 100)?;
    /// assert_eq!((timeline.capacity(), timeline.runs_used()), (100, 0));
    ///
    /// let refused = Timeline::open(Head::new(Timescale(0)), Tick(0), 100);
    /// assert_eq!(refused, Err(OpenError::Refused(Refusal::OverLimit)));
    /// # Ok(())
    /// # }
    /// ```
    pub fn open(head: Head, first_tick: Tick, runs: usize) -> Result<Timeline, OpenError> {
        let mut record = [0; RECORD_WORDS];
        let mut table = table_of(runs)?;
        Refusal::judge(words::open(
            &mut record,
            &mut table,
            head.timescale.0,
            head.offset.0,
            head.start.0,
            head.duration.0,
            head.depth.0,
            head.first_number.0,
            head.update.0,
            first_tick.0,
        ))?;
        Ok(Timeline { record, table })
    }

    /// Appends so many references of one duration that start at a full tick.
    ///
    /// Those that no window can need any more are counted and not kept. Refusals
    /// [`NothingGiven`](Refusal::NothingGiven), [`Gap`](Refusal::Gap) or
    /// [`Overlap`](Refusal::Overlap), which tell how far the start lies from the next tick,
    /// [`TickLimit`](Refusal::TickLimit), [`CountLimit`](Refusal::CountLimit),
    /// [`PastEnd`](Refusal::PastEnd), [`NoRunLeft`](Refusal::NoRunLeft).
    ///
    /// ```
    /// # use flonterri::{Distance, Head, Refusal, Span, Tick, Timeline, Timescale};
    /// # fn main() -> Result<(), flonterri::OpenError> {
    /// let mut timeline = Timeline::open(Head::new(Timescale(10)), Tick(111), 10)?;
    /// timeline.append(Tick(111), Span(40), 1)?;
    /// timeline.append(Tick(151), Span(10), 1)?;
    /// assert_eq!(timeline.next_tick(), Tick(161));
    /// let refused = timeline.append(Tick(170), Span(10), 1);
    /// assert_eq!(refused, Err(Refusal::Gap(Distance(9))));
    /// # Ok(())
    /// # }
    /// ```
    pub fn append(&mut self, start: Tick, duration: Span, count: u32) -> Result<(), Refusal> {
        self.judge_append(|record, table, out| {
            words::append(record, table, start.0, duration.0, count, out)
        })
    }

    /// Appends as [`append`](Timeline::append) does, with the low 32 bits of the start alone. A
    /// stamp cannot show a jump of a whole 2^32 ticks: the distance of a gap is 2^31 - 1 at most, that
    /// of an overlap 2^31.
    ///
    /// ```
    /// # use flonterri::{Distance, Head, Refusal, Span, Stamp, Tick, Timeline, Timescale};
    /// # fn main() -> Result<(), flonterri::OpenError> {
    /// let past_32_bits = Tick(4_294_970_000);
    /// let mut timeline = Timeline::open(Head::new(Timescale(1000)), past_32_bits, 10)?;
    /// let refused = timeline.append_stamp(Stamp(2703), Span(1), 1);
    /// assert_eq!(refused, Err(Refusal::Overlap(Distance(1))));
    /// timeline.append_stamp(Stamp(2704), Span(1), 1)?;
    /// assert_eq!(timeline.next_tick(), Tick(4_294_970_001));
    /// # Ok(())
    /// # }
    /// ```
    pub fn append_stamp(
        &mut self,
        stamp: Stamp,
        duration: Span,
        count: u32,
    ) -> Result<(), Refusal> {
        self.judge_append(|record, table, out| {
            words::append_stamp(record, table, stamp.0, duration.0, count, out)
        })
    }

    /// Makes an append over record, table and the word that tells its distance.
    fn judge_append(
        &mut self,
        append: impl FnOnce(&mut [u64], &mut [u64], &mut [u64]) -> u32,
    ) -> Result<(), Refusal> {
        let mut out = [0; words::DISTANCE_WORDS];
        let number = append(&mut self.record, &mut self.table, &mut out);
        let [distance] = out;
        Refusal::judge_start(number, distance)
    }

    /// Raises the greatest clock to this one, if it is later, and drops every reference that is
    /// needed neither at it nor at any later millisecond. An earlier clock changes nothing. The
    /// update period plays no part in it. It costs no coverage: a verdict at this clock or a later one
    /// is what it would be without the trim. Refusal [`ClockLimit`](Refusal::ClockLimit).
    ///
    /// ```
    /// # use flonterri::{Head, Millis, Span, Tick, Timeline, Timescale};
    /// # fn main() -> Result<(), flonterri::OpenError> {
    /// let head = Head { depth: Millis(10_000), ..Head::new(Timescale(1000)) };
    /// let mut timeline = Timeline::open(head, Tick(0), 10)?;
    /// timeline.append(Tick(0), Span(4000), 5)?;
    /// timeline.trim(Millis(13_999))?;
    /// assert_eq!(timeline.dropped(), 0);
    /// let before = timeline.verdict(Millis(14_000))?;
    /// timeline.trim(Millis(14_000))?;
    /// assert_eq!(timeline.dropped(), 1);
    /// assert_eq!(timeline.verdict(Millis(14_000))?, before);
    /// # Ok(())
    /// # }
    /// ```
    pub fn trim(&mut self, clock: Millis) -> Result<(), Refusal> {
        Refusal::judge(words::trim(&mut self.record, &mut self.table, clock.0))
    }

    /// Appends as [`append_stamp`](Timeline::append_stamp) does and then trims at a clock as
    /// [`trim`](Timeline::trim) does, in one call for each segment that comes: record and table are tested
    /// for agreement once, and not once a call.
    ///
    /// It is both or neither. Of two calls the trim would still be made behind a gap, and the append would
    /// stand before a clock over its limit. So [`ClockLimit`](Refusal::ClockLimit) is judged first, then
    /// what an append is refused with. The clock makes no room:
    /// [`NoRunLeft`](Refusal::NoRunLeft) is answered also where the trim would have emptied the table.
    ///
    /// ```
    /// # use flonterri::{Distance, Head, Millis, Refusal, Span, Stamp, Tick, Timeline, Timescale};
    /// # fn main() -> Result<(), flonterri::OpenError> {
    /// let head = Head { depth: Millis(10_000), ..Head::new(Timescale(1000)) };
    /// let mut timeline = Timeline::open(head, Tick(0), 10)?;
    /// for segment in 0..5 {
    ///     let (stamp, end) = (Stamp(segment * 4000), u64::from(segment + 1) * 4000);
    ///     timeline.append_trim(stamp, Span(4000), 1, Millis(end))?;
    /// }
    /// assert_eq!((timeline.accepted(), timeline.dropped()), (5, 2));
    ///
    /// // A segment of four seconds is missing: nothing is appended, and nothing trimmed.
    /// let refused = timeline.append_trim(Stamp(24_000), Span(4000), 1, Millis(28_000));
    /// assert_eq!(refused, Err(Refusal::Gap(Distance(4000))));
    /// assert_eq!(timeline.greatest_clock(), Millis(20_000));
    /// # Ok(())
    /// # }
    /// ```
    pub fn append_trim(
        &mut self,
        stamp: Stamp,
        duration: Span,
        count: u32,
        clock: Millis,
    ) -> Result<(), Refusal> {
        self.judge_append(|record, table, out| {
            words::append_trim(record, table, stamp.0, duration.0, count, clock.0, out)
        })
    }

    /// Makes room for so many runs in all: the same references, and more zeros behind them. Where
    /// there is as much room already, nothing changes. [`NoMemory`](OpenError::NoMemory) for so
    /// many runs, which changes nothing either; it is never refused.
    ///
    /// An append that needs a new run is refused with [`NoRunLeft`](Refusal::NoRunLeft) where the
    /// table is full:
    ///
    /// ```
    /// # use flonterri::{Head, Refusal, Span, Tick, Timeline, Timescale};
    /// # fn main() -> Result<(), flonterri::OpenError> {
    /// let mut timeline = Timeline::open(Head::new(Timescale(1000)), Tick(0), 1)?;
    /// timeline.append(Tick(0), Span(4000), 5)?;
    /// assert_eq!(timeline.append(Tick(20_000), Span(4004), 1), Err(Refusal::NoRunLeft));
    ///
    /// timeline.grow(timeline.capacity() + 100)?;
    /// timeline.append(Tick(20_000), Span(4004), 1)?;
    /// assert_eq!((timeline.accepted(), timeline.capacity()), (6, 101));
    /// # Ok(())
    /// # }
    /// ```
    pub fn grow(&mut self, runs: usize) -> Result<(), OpenError> {
        lengthen(&mut self.table, runs)
    }
}

/// The calls that look.
impl Timeline {
    /// The verdict at a clock. Refusals [`ClockLimit`](Refusal::ClockLimit),
    /// [`EarlierClock`](Refusal::EarlierClock).
    ///
    /// The window ends at the clock plus the update period of the [`Head`], or with the period if
    /// that is earlier. So ask as far back as segments are late, and an update period more, and trim
    /// by the same clock:
    ///
    /// ```
    /// # use flonterri::{Head, Millis, Span, Tick, Timeline, Timescale};
    /// # fn main() -> Result<(), flonterri::OpenError> {
    /// // Segments of 4 s that come at most 700 ms after their end.
    /// let late = 4_700;
    /// let head = Head { depth: Millis(10_000), ..Head::new(Timescale(1000)) };
    /// let mut timeline = Timeline::open(head, Tick(0), 10)?;
    /// timeline.append(Tick(0), Span(4000), 5)?;
    /// let now = 24_700;
    /// let clock = Millis(now - late).max(timeline.greatest_clock());
    /// timeline.trim(clock)?;
    /// assert!(timeline.verdict(clock)?.is_complete());
    /// assert!(!timeline.verdict(Millis(now))?.is_complete());
    /// # Ok(())
    /// # }
    /// ```
    pub fn verdict(&self, clock: Millis) -> Result<Verdict, Refusal> {
        let mut out = [0; words::VERDICT_WORDS];
        let number = words::verdict(&self.record, &self.table, clock.0, &mut out);
        Refusal::judge(number).map(|()| Verdict::of_words(out))
    }

    /// The verdict with the whole period as the window. Refusal
    /// [`EndUnknown`](Refusal::EndUnknown).
    ///
    /// ```
    /// # use flonterri::{Head, Millis, Span, Tick, Timeline, Timescale};
    /// # fn main() -> Result<(), flonterri::OpenError> {
    /// let head = Head {
    ///     duration: Millis(500),
    ///     ..Head::new(Timescale(3))
    /// };
    /// let mut timeline = Timeline::open(head, Tick(0), 10)?;
    /// timeline.append(Tick(0), Span(1), 1)?;
    /// assert_eq!(timeline.verdict_whole()?.to_string(), "lacking 1 1/2 50%");
    /// # Ok(())
    /// # }
    /// ```
    pub fn verdict_whole(&self) -> Result<Verdict, Refusal> {
        let mut out = [0; words::VERDICT_WORDS];
        let number = words::verdict_whole(&self.record, &self.table, &mut out);
        Refusal::judge(number).map(|()| Verdict::of_words(out))
    }

    /// When the reference of a number is available. Refusal [`NotKept`](Refusal::NotKept).
    ///
    /// ```
    /// # use flonterri::{Grain, Head, Number, Span, Tick, Timeline, Timescale};
    /// # fn main() -> Result<(), flonterri::OpenError> {
    /// let mut timeline = Timeline::open(Head::new(Timescale(1000)), Tick(0), 10)?;
    /// timeline.append(Tick(0), Span(4000), 2)?;
    /// let available = timeline.availability(Number(1))?;
    /// assert_eq!((available.start, available.end), (Grain(8_000_000), None));
    /// # Ok(())
    /// # }
    /// ```
    pub fn availability(&self, number: Number) -> Result<Availability, Refusal> {
        let mut out = [0; words::AVAILABILITY_WORDS];
        let answer = words::availability(&self.record, &self.table, number.0.into(), &mut out);
        Refusal::judge(answer).map(|()| Availability::of_words(out))
    }

    /// Whether the reference of a number is available at a clock. Refusals
    /// [`ClockLimit`](Refusal::ClockLimit), [`NotKept`](Refusal::NotKept).
    ///
    /// ```
    /// # use flonterri::{Head, Millis, Number, Span, Tick, Timeline, Timescale};
    /// # fn main() -> Result<(), flonterri::OpenError> {
    /// let head = Head { depth: Millis(10_000), ..Head::new(Timescale(1000)) };
    /// let mut timeline = Timeline::open(head, Tick(0), 10)?;
    /// timeline.append(Tick(0), Span(4000), 5)?;
    /// // Number 2 ends at 12 s, and is available for its own 4 s and the depth from there on.
    /// assert!(!timeline.available_at(Number(2), Millis(11_999))?);
    /// assert!(timeline.available_at(Number(2), Millis(12_000))?);
    /// assert!(!timeline.available_at(Number(2), Millis(26_000))?);
    /// # Ok(())
    /// # }
    /// ```
    pub fn available_at(&self, number: Number, clock: Millis) -> Result<bool, Refusal> {
        let mut out = [0; words::AVAILABLE_WORDS];
        let number = number.0.into();
        let answer = words::available_at(&self.record, &self.table, number, clock.0, &mut out);
        Refusal::judge(answer).map(|()| out == [1])
    }

    /// The covered edge: the greatest clock at which the window's upper edge, which lies the update
    /// period past the clock, is at or before the next tick. None where clock 0 already passes it;
    /// [`Millis::LARGEST`] where the next tick reaches a known period end. At every later clock whose
    /// window is not empty the verdict is never complete.
    ///
    /// It knows nothing of the window's lower edge, so the verdict at it may be lacking. It may lie
    /// before the greatest clock, where a verdict is refused. And it stands still where a packager
    /// has stopped: so ask at the earlier of it and now, and look how far behind now it lies.
    ///
    /// ```
    /// # use flonterri::{Head, Millis, Span, Tick, Timeline, Timescale};
    /// # fn main() -> Result<(), flonterri::OpenError> {
    /// let head = Head { depth: Millis(10_000), ..Head::new(Timescale(1000)) };
    /// let mut timeline = Timeline::open(head, Tick(0), 10)?;
    /// timeline.append(Tick(0), Span(4000), 5)?;
    /// let edge = timeline.covered_edge().expect("a clock");
    /// assert_eq!(edge, Millis(20_000));
    ///
    /// let now = Millis(24_600);
    /// let clock = edge.min(now).max(timeline.greatest_clock());
    /// timeline.trim(clock)?;
    /// assert!(timeline.verdict(clock)?.is_complete());
    /// // A segment of 4 s comes at most 700 ms after its end.
    /// assert!(now.0 - clock.0 <= 4_700, "the packager has stopped");
    /// # Ok(())
    /// # }
    /// ```
    pub fn covered_edge(&self) -> Option<Millis> {
        let mut out = [0; words::EDGE_WORDS];
        // Never refused, since a timeline agrees; it would leave the zeros, which are no clock.
        words::covered_edge(&self.record, &self.table, &mut out);
        (out[edge_word::KIND] == edge_kind::AT).then(|| Millis(out[edge_word::CLOCK]))
    }

    /// The full tick of a stamp: the one within half a circle of the next tick that has these low 32
    /// bits. A gap lies after the next tick, an overlap before it, and a stamp exactly 2^31 away
    /// lies before it. None where that would be below 0 or over [`Tick::LARGEST`].
    ///
    /// So to go on after a gap: open a new timeline at the full tick, with the next number, and trim
    /// it to the old clock.
    ///
    /// ```
    /// # use flonterri::{Distance, Head, Millis, Number, Refusal, Span, Stamp, Tick, Timeline, Timescale};
    /// # fn main() -> Result<(), flonterri::OpenError> {
    /// let head = Head { depth: Millis(10_000), ..Head::new(Timescale(90_000)) };
    /// let mut timeline = Timeline::open(head, Tick(4_294_800_000), 10)?;
    /// timeline.append(Tick(4_294_800_000), Span(180_000), 1)?;
    /// timeline.trim(Millis(47_722_000))?;
    ///
    /// // The counter has gone round, and a segment of two seconds is missing.
    /// let stamp = Stamp(192_704);
    /// let refused = timeline.append_stamp(stamp, Span(180_000), 1);
    /// assert_eq!(refused, Err(Refusal::Gap(Distance(180_000))));
    ///
    /// let start = timeline.full_tick(stamp).expect("a tick within its limit");
    /// assert_eq!(start, Tick(4_295_160_000));
    /// let head = Head { first_number: timeline.next_number(), ..timeline.head() };
    /// let mut after = Timeline::open(head, start, timeline.capacity())?;
    /// after.trim(timeline.greatest_clock())?;
    /// after.append(start, Span(180_000), 1)?;
    /// assert_eq!(after.first_kept_number(), Number(1));
    /// # Ok(())
    /// # }
    /// ```
    pub fn full_tick(&self, stamp: Stamp) -> Option<Tick> {
        let mut out = [0; words::FULL_TICK_WORDS];
        // Never refused, as above; the zeros are no tick.
        words::full_tick(&self.record, &self.table, stamp.0, &mut out);
        (out[full_tick_word::KIND] == full_tick_kind::AT).then(|| Tick(out[full_tick_word::TICK]))
    }

    /// The runs that touch the ticks of a range, its end excluded, read from the table without a
    /// copy. Refusal [`EmptySpan`](Refusal::EmptySpan).
    ///
    /// ```
    /// # use flonterri::{Head, Run, Span, Tick, Timeline, Timescale};
    /// # fn main() -> Result<(), flonterri::OpenError> {
    /// let mut timeline = Timeline::open(Head::new(Timescale(1000)), Tick(0), 10)?;
    /// timeline.append(Tick(0), Span(40), 5)?;
    /// timeline.append(Tick(200), Span(10), 1)?;
    /// let mut runs = timeline.touching(Tick(200)..Tick(1000))?;
    /// assert_eq!(runs.next(), Some(Run { start: Tick(200), duration: Span(10), count: 1 }));
    /// assert_eq!(runs.next(), None);
    /// # Ok(())
    /// # }
    /// ```
    pub fn touching(&self, ticks: Range<Tick>) -> Result<Runs<'_>, Refusal> {
        let mut out = [0; words::TOUCHING_WORDS];
        let number = words::touching(
            &self.record,
            &self.table,
            ticks.start.0,
            ticks.end.0,
            &mut out,
        );
        Refusal::judge(number)?;
        let place = |at: usize| narrow(out[at], usize::MAX);
        let part = place(touching_word::FROM)..place(touching_word::TO);
        Ok(Runs::of_words(self.table.get(part).unwrap_or_default()))
    }
}

/// Files.
impl Timeline {
    /// Reads a file into a timeline with room for so many runs. Refused with the first refused
    /// line, or [`NoMemory`](OpenError::NoMemory) for so many runs.
    ///
    /// A head of kind 01, as it was written before there was an update period, is read with 0:
    ///
    /// ```
    /// use flonterri::{Number, Tick, Timeline};
    ///
    /// # fn main() -> Result<(), flonterri::ReadError> {
    /// let file = "\
    /// 05000003e80000000000000000000000000000000000000000000000000000000000002710000000030000000000000000
    /// 020000000000001f4000000fa000000002
    /// 0300000001
    /// ";
    /// let timeline = Timeline::read(file.as_bytes(), 10)?;
    /// assert_eq!(timeline.next_tick(), Tick(20_000));
    /// assert_eq!(timeline.first_kept_number(), Number(3));
    /// assert_eq!(timeline.write().unwrap(), file.as_bytes());
    ///
    /// let older = file.replace("0000000000000000\n", "\n").replacen("05", "01", 1);
    /// assert_eq!(Timeline::read(older.as_bytes(), 10)?, timeline);
    /// # Ok(())
    /// # }
    /// ```
    pub fn read(file: &[u8], runs: usize) -> Result<Timeline, ReadError> {
        let mut record = [0; RECORD_WORDS];
        let mut table = table_of(runs)?;
        let mut out = [0; words::READ_WORDS];
        let number = words::read(file, &mut record, &mut table, &mut out);
        let line = out[read_word::LINE];
        Refusal::judge_start(number, out[read_word::DISTANCE])
            .map_err(|refusal| RefusedFile { refusal, line })?;
        Ok(Timeline { record, table })
    }

    /// The file of what is kept. Refusal [`NothingKept`](Refusal::NothingKept).
    ///
    /// Its head is of kind 05, with the update period. A file keeps no greatest clock: who reads it
    /// back trims at the last clock first.
    ///
    /// ```
    /// # use flonterri::{Head, Millis, Span, Tick, Timeline, Timescale};
    /// # fn main() -> Result<(), flonterri::OpenError> {
    /// let head = Head { depth: Millis(10_000), ..Head::new(Timescale(1000)) };
    /// let mut timeline = Timeline::open(head, Tick(0), 10)?;
    /// timeline.append(Tick(0), Span(4000), 5)?;
    /// timeline.trim(Millis(18_000))?;
    /// let file = timeline.write()?;
    ///
    /// let mut again = Timeline::read(&file, 10).expect("a file that was written");
    /// assert_eq!(again.greatest_clock(), Millis(0));
    /// again.trim(Millis(18_000))?;
    /// assert_eq!(again.write()?, file);
    /// # Ok(())
    /// # }
    /// ```
    pub fn write(&self) -> Result<Vec<u8>, Refusal> {
        let mut file = vec![0; HEAD_AND_END_BYTES + S_BYTES * self.runs().len()];
        let length = self.write_into(&mut file)?;
        file.truncate(length);
        Ok(file)
    }

    /// Writes the file of what is kept to the front of an output and answers its length; what
    /// lies behind stays as it came. Refusals [`NothingKept`](Refusal::NothingKept),
    /// [`ShortOutput`](Refusal::ShortOutput).
    ///
    /// ```
    /// # use flonterri::{Head, Refusal, Span, Tick, Timeline, Timescale};
    /// # fn main() -> Result<(), flonterri::OpenError> {
    /// let mut timeline = Timeline::open(Head::new(Timescale(1000)), Tick(0), 10)?;
    /// timeline.append(Tick(0), Span(4000), 5)?;
    /// let mut output = [b'#'; 200];
    /// let length = timeline.write_into(&mut output)?;
    /// assert_eq!(output[..length], timeline.write()?);
    /// assert_eq!(timeline.write_into(&mut output[..length - 1]), Err(Refusal::ShortOutput));
    /// # Ok(())
    /// # }
    /// ```
    pub fn write_into(&self, output: &mut [u8]) -> Result<usize, Refusal> {
        let mut out = [0; words::WRITE_WORDS];
        Refusal::judge(words::write(&self.record, &self.table, output, &mut out))?;
        let [length] = out;
        Ok(narrow(length, usize::MAX))
    }
}

/// What the record holds.
impl Timeline {
    /// The head.
    ///
    /// ```
    /// # use flonterri::{Head, Tick, Timeline, Timescale};
    /// # fn main() -> Result<(), flonterri::OpenError> {
    /// let head = Head::new(Timescale(1000));
    /// assert_eq!(Timeline::open(head, Tick(0), 10)?.head(), head);
    /// # Ok(())
    /// # }
    /// ```
    pub fn head(&self) -> Head {
        Head {
            timescale: Timescale(narrow(self.record[word::TIMESCALE], u32::MAX)),
            offset: Tick(self.record[word::OFFSET]),
            start: Millis(self.record[word::START]),
            duration: Millis(self.record[word::DURATION]),
            depth: Millis(self.record[word::DEPTH]),
            first_number: Number(narrow(self.record[word::FIRST_NUMBER], u32::MAX)),
            update: Millis(self.record[word::UPDATE_PERIOD]),
        }
    }

    /// How many references were accepted.
    ///
    /// ```
    /// # use flonterri::{Head, Span, Tick, Timeline, Timescale};
    /// # fn main() -> Result<(), flonterri::OpenError> {
    /// let mut timeline = Timeline::open(Head::new(Timescale(1000)), Tick(0), 10)?;
    /// timeline.append(Tick(0), Span(4000), 5)?;
    /// assert_eq!(timeline.accepted(), 5);
    /// # Ok(())
    /// # }
    /// ```
    pub fn accepted(&self) -> u64 {
        self.record[word::ACCEPTED]
    }

    /// How many of the accepted ones were dropped.
    ///
    /// ```
    /// # use flonterri::{Head, Millis, Span, Tick, Timeline, Timescale};
    /// # fn main() -> Result<(), flonterri::OpenError> {
    /// let head = Head { depth: Millis(10_000), ..Head::new(Timescale(1000)) };
    /// let mut timeline = Timeline::open(head, Tick(0), 10)?;
    /// timeline.append(Tick(0), Span(4000), 5)?;
    /// timeline.trim(Millis(18_000))?;
    /// assert_eq!((timeline.accepted(), timeline.dropped()), (5, 2));
    /// # Ok(())
    /// # }
    /// ```
    pub fn dropped(&self) -> u64 {
        self.record[word::DROPPED]
    }

    /// Where the next reference must start.
    ///
    /// ```
    /// # use flonterri::{Head, Span, Tick, Timeline, Timescale};
    /// # fn main() -> Result<(), flonterri::OpenError> {
    /// let mut timeline = Timeline::open(Head::new(Timescale(1000)), Tick(0), 10)?;
    /// timeline.append(Tick(0), Span(4000), 5)?;
    /// assert_eq!(timeline.next_tick(), Tick(20_000));
    /// # Ok(())
    /// # }
    /// ```
    pub fn next_tick(&self) -> Tick {
        Tick(self.record[word::NEXT_TICK])
    }

    /// The greatest clock of all trims. A verdict at an earlier one is refused.
    ///
    /// ```
    /// # use flonterri::{Head, Millis, Refusal, Span, Tick, Timeline, Timescale};
    /// # fn main() -> Result<(), flonterri::OpenError> {
    /// let head = Head { depth: Millis(10_000), ..Head::new(Timescale(1000)) };
    /// let mut timeline = Timeline::open(head, Tick(0), 10)?;
    /// timeline.append(Tick(0), Span(4000), 5)?;
    /// timeline.trim(Millis(18_000))?;
    /// timeline.trim(Millis(17_000))?;
    /// assert_eq!(timeline.greatest_clock(), Millis(18_000));
    /// assert_eq!(timeline.verdict(Millis(17_000)), Err(Refusal::EarlierClock));
    /// # Ok(())
    /// # }
    /// ```
    pub fn greatest_clock(&self) -> Millis {
        Millis(self.record[word::GREATEST_CLOCK])
    }

    /// The number of the first kept reference: first number plus dropped. With nothing kept it is
    /// that of the next reference.
    ///
    /// ```
    /// # use flonterri::{Head, Millis, Number, Span, Tick, Timeline, Timescale};
    /// # fn main() -> Result<(), flonterri::OpenError> {
    /// let head = Head { depth: Millis(10_000), ..Head::new(Timescale(1000)) };
    /// let mut timeline = Timeline::open(head, Tick(0), 10)?;
    /// timeline.append(Tick(0), Span(4000), 5)?;
    /// assert_eq!(timeline.first_kept_number(), Number(0));
    /// timeline.trim(Millis(18_000))?;
    /// assert_eq!(timeline.first_kept_number(), Number(2));
    /// # Ok(())
    /// # }
    /// ```
    pub fn first_kept_number(&self) -> Number {
        let number = self.record[word::FIRST_NUMBER].saturating_add(self.dropped());
        Number(narrow(number, u32::MAX))
    }

    /// The number of the next reference: first number plus accepted.
    ///
    /// ```
    /// # use flonterri::{Head, Number, Span, Tick, Timeline, Timescale};
    /// # fn main() -> Result<(), flonterri::OpenError> {
    /// let head = Head { first_number: Number(1), ..Head::new(Timescale(1000)) };
    /// let mut timeline = Timeline::open(head, Tick(0), 10)?;
    /// timeline.append(Tick(0), Span(4000), 5)?;
    /// assert_eq!(timeline.next_number(), Number(6));
    /// # Ok(())
    /// # }
    /// ```
    pub fn next_number(&self) -> Number {
        let number = self.record[word::FIRST_NUMBER].saturating_add(self.accepted());
        Number(narrow(number, u32::MAX))
    }

    /// How many runs are used.
    ///
    /// ```
    /// # use flonterri::{Head, Span, Tick, Timeline, Timescale};
    /// # fn main() -> Result<(), flonterri::OpenError> {
    /// let mut timeline = Timeline::open(Head::new(Timescale(1000)), Tick(0), 10)?;
    /// timeline.append(Tick(0), Span(4000), 5)?;
    /// timeline.append(Tick(20_000), Span(4004), 1)?;
    /// assert_eq!(timeline.runs_used(), 2);
    /// # Ok(())
    /// # }
    /// ```
    pub fn runs_used(&self) -> usize {
        narrow(self.record[word::RUNS_USED], usize::MAX)
    }

    /// How many runs there is room for.
    ///
    /// ```
    /// # use flonterri::{Head, Tick, Timeline, Timescale};
    /// # fn main() -> Result<(), flonterri::OpenError> {
    /// let timeline = Timeline::open(Head::new(Timescale(1000)), Tick(0), 10)?;
    /// assert_eq!(timeline.capacity(), 10);
    /// # Ok(())
    /// # }
    /// ```
    pub fn capacity(&self) -> usize {
        self.table.len() / RUN_WORDS
    }

    /// Every used run, oldest first.
    ///
    /// ```
    /// # use flonterri::{Head, Run, Span, Tick, Timeline, Timescale};
    /// # fn main() -> Result<(), flonterri::OpenError> {
    /// let mut timeline = Timeline::open(Head::new(Timescale(1000)), Tick(0), 10)?;
    /// timeline.append(Tick(0), Span(4000), 5)?;
    /// let run = Run { start: Tick(0), duration: Span(4000), count: 5 };
    /// assert!(timeline.runs().eq([run]));
    /// # Ok(())
    /// # }
    /// ```
    pub fn runs(&self) -> Runs<'_> {
        let used = self.runs_used().saturating_mul(RUN_WORDS);
        Runs::of_words(self.table.get(..used).unwrap_or_default())
    }

    /// Every kept reference with its number and its ticks, oldest first.
    ///
    /// ```
    /// # use flonterri::{Head, Millis, Number, Reference, Span, Tick, Timeline, Timescale};
    /// # fn main() -> Result<(), flonterri::OpenError> {
    /// let head = Head { depth: Millis(10_000), ..Head::new(Timescale(1000)) };
    /// let mut timeline = Timeline::open(head, Tick(0), 10)?;
    /// timeline.append(Tick(0), Span(4000), 5)?;
    /// timeline.trim(Millis(18_000))?;
    /// let mut references = timeline.references();
    /// assert_eq!(references.len(), 3);
    /// let first = Reference { number: Number(2), start: Tick(8000), duration: Span(4000) };
    /// assert_eq!(references.next(), Some(first));
    /// assert_eq!(references.next().map(|reference| reference.start), Some(first.end()));
    /// # Ok(())
    /// # }
    /// ```
    pub fn references(&self) -> References<'_> {
        let kept = self.accepted().saturating_sub(self.dropped());
        References::of_runs(self.runs(), self.first_kept_number(), kept)
    }
}

/// Memory kept elsewhere.
impl Timeline {
    /// A timeline of words that were kept elsewhere. They may be anything: where they are no
    /// timeline, they are refused. Refusal [`Disagreement`](Refusal::Disagreement).
    ///
    /// Who wants to look into words that are no timeline keeps them: [`words::agree`] tests them
    /// where they lie, and the calls of [`words`] take them as they are.
    ///
    /// ```
    /// # use flonterri::{Head, Refusal, Span, Tick, Timeline, Timescale};
    /// # fn main() -> Result<(), flonterri::OpenError> {
    /// let mut timeline = Timeline::open(Head::new(Timescale(1000)), Tick(0), 10)?;
    /// timeline.append(Tick(0), Span(4000), 5)?;
    /// let (mut record, table) = (*timeline.record_words(), timeline.table_words().to_vec());
    /// assert_eq!(Timeline::of_words(record, table.clone())?, timeline);
    /// record[flonterri::words::word::NEXT_TICK] += 1;
    /// assert_eq!(Timeline::of_words(record, table), Err(Refusal::Disagreement));
    /// # Ok(())
    /// # }
    /// ```
    pub fn of_words(record: [u64; RECORD_WORDS], table: Vec<u64>) -> Result<Timeline, Refusal> {
        if words::agree(&record, &table) {
            Ok(Timeline { record, table })
        } else {
            Err(Refusal::Disagreement)
        }
    }

    /// The words of the record, in the order that [`word`] tells.
    ///
    /// ```
    /// # use flonterri::{words::word, Head, Span, Tick, Timeline, Timescale};
    /// # fn main() -> Result<(), flonterri::OpenError> {
    /// let mut timeline = Timeline::open(Head::new(Timescale(1000)), Tick(0), 10)?;
    /// timeline.append(Tick(0), Span(4000), 5)?;
    /// assert_eq!(timeline.record_words()[word::NEXT_TICK], 20_000);
    /// # Ok(())
    /// # }
    /// ```
    pub fn record_words(&self) -> &[u64; RECORD_WORDS] {
        &self.record
    }

    /// The words of the table: three for each run, and zeros behind the used ones.
    ///
    /// ```
    /// # use flonterri::{Head, Span, Tick, Timeline, Timescale};
    /// # fn main() -> Result<(), flonterri::OpenError> {
    /// let mut timeline = Timeline::open(Head::new(Timescale(1000)), Tick(0), 10)?;
    /// timeline.append(Tick(0), Span(4000), 5)?;
    /// assert_eq!(timeline.table_words()[..4], [0, 4000, 5, 0]);
    /// # Ok(())
    /// # }
    /// ```
    pub fn table_words(&self) -> &[u64] {
        &self.table
    }
}

/// A table of so many runs, all of it 0.
fn table_of<Why>(runs: usize) -> Result<Vec<u64>, OpenError<Why>> {
    let mut table = Vec::new();
    lengthen(&mut table, runs)?;
    Ok(table)
}

/// Puts zeros behind a table until it has room for so many runs. A number of runs that no memory
/// holds is an error, not a smaller table and not the end of the program.
fn lengthen<Why>(table: &mut Vec<u64>, runs: usize) -> Result<(), OpenError<Why>> {
    let no_memory = || OpenError::NoMemory { runs };
    let words = runs.checked_mul(RUN_WORDS).ok_or_else(no_memory)?;
    let more = words.saturating_sub(table.len());
    table.try_reserve_exact(more).map_err(|_| no_memory())?;
    table.resize(table.len() + more, 0);
    Ok(())
}
