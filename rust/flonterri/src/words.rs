//! The calls as the archive has them, over lent words and bytes, each safe to call.
//!
//! Most programs want [`Timeline`](crate::Timeline), which owns its memory. These calls are for
//! memory that is kept elsewhere, in a file or shared with another process, and for words that may
//! not be a timeline.
//!
//! Each answers the refusal number, 0 where accepted. A record is [`RECORD_WORDS`] words, in the
//! order that [`word`] tells. A table has [`RUN_WORDS`] words for each run, in the order that
//! [`run_word`] tells. Words of any value and slices of any length are taken: what cannot be a
//! timeline is refused.
//!
//! Before all else a record that is not of 12 words is 2, and then an `out` that is not of its
//! length is 15; both leave all memory as it came. What a call changes where it is refused with
//! another number stands beside it.

/// Words of a record.
pub const RECORD_WORDS: usize = 12;

/// Words of a run in the table.
pub const RUN_WORDS: usize = 3;

/// Words of the `out` of [`verdict`] and [`verdict_whole`].
pub const VERDICT_WORDS: usize = 5;

/// Words of the `out` of [`availability`].
pub const AVAILABILITY_WORDS: usize = 3;

/// Words of the `out` of [`touching`].
pub const TOUCHING_WORDS: usize = 2;

/// Words of the `out` of [`available_at`]: 1 where it is available, else 0.
pub const AVAILABLE_WORDS: usize = 1;

/// Words of the `out` of [`covered_edge`].
pub const EDGE_WORDS: usize = 2;

/// Words of the `out` of [`full_tick`].
pub const FULL_TICK_WORDS: usize = 2;

/// Words of the `out` of [`append`], [`append_stamp`] and [`append_trim`]: the distance.
pub const DISTANCE_WORDS: usize = 1;

/// Words of the `out` of [`read`].
pub const READ_WORDS: usize = 2;

/// Words of the `out` of [`write()`]: the length.
pub const WRITE_WORDS: usize = 1;

/// Where each word of a record stands.
pub mod word {
    /// Ticks a second.
    pub const TIMESCALE: usize = 0;
    /// Presentation time offset, in ticks.
    pub const OFFSET: usize = 1;
    /// Period start, in milliseconds.
    pub const START: usize = 2;
    /// Period duration, in milliseconds; 0: the end is unknown.
    pub const DURATION: usize = 3;
    /// Window depth, in milliseconds; 0: none is given.
    pub const DEPTH: usize = 4;
    /// The number of the first reference.
    pub const FIRST_NUMBER: usize = 5;
    /// Update period, in milliseconds: how far past the clock the window reaches.
    pub const UPDATE_PERIOD: usize = 6;
    /// How many references were accepted.
    pub const ACCEPTED: usize = 7;
    /// How many of them were dropped.
    pub const DROPPED: usize = 8;
    /// Where the next reference must start.
    pub const NEXT_TICK: usize = 9;
    /// The greatest clock of all trims.
    pub const GREATEST_CLOCK: usize = 10;
    /// How many runs of the table are used.
    pub const RUNS_USED: usize = 11;
}

/// Where each word of a run stands, counted from its first.
pub mod run_word {
    /// Where the first reference starts, in ticks.
    pub const START: usize = 0;
    /// How many ticks each reference lasts.
    pub const DURATION: usize = 1;
    /// How many references there are.
    pub const COUNT: usize = 2;
}

/// Where each word of a verdict stands. What does not apply is 0.
pub mod verdict_word {
    /// One of [`verdict_kind`](super::verdict_kind).
    pub const KIND: usize = 0;
    /// How many ticks are needed.
    pub const NEEDED: usize = 1;
    /// How many of them lie in a kept reference.
    pub const COVERED: usize = 2;
    /// The lowest needed tick that lies in none.
    pub const LOWEST: usize = 3;
    /// Covered x 100 / needed, rounded down.
    pub const PERCENT: usize = 4;
}

/// The kinds of a verdict.
pub mod verdict_kind {
    /// No tick is needed; every other word is 0.
    pub const NOTHING_NEEDED: u64 = 0;
    /// Every needed tick is covered: covered is needed, lowest is 0, percent is 100.
    pub const COMPLETE: u64 = 1;
    /// A needed tick is not covered.
    pub const LACKING: u64 = 2;
}

/// Where each word of an availability stands.
pub mod availability_word {
    /// One of [`availability_kind`](super::availability_kind).
    pub const KIND: usize = 0;
    /// From this grain on.
    pub const START: usize = 1;
    /// Up to this grain, which is excluded; 0 where it never ends.
    pub const END: usize = 2;
}

/// The kinds of an availability.
pub mod availability_kind {
    /// No depth is given, so it never ends.
    pub const NEVER_ENDS: i64 = 0;
    /// It ends.
    pub const ENDS: i64 = 1;
}

/// Where each word stands that tells the runs which touch a span. Both are 0 where none does.
pub mod touching_word {
    /// The place in the table of their first word.
    pub const FROM: usize = 0;
    /// The place past their last word.
    pub const TO: usize = 1;
}

/// Where each word of a covered edge stands.
pub mod edge_word {
    /// One of [`edge_kind`](super::edge_kind).
    pub const KIND: usize = 0;
    /// The clock, in milliseconds; 0 where there is none.
    pub const CLOCK: usize = 1;
}

/// The kinds of a covered edge.
pub mod edge_kind {
    /// The window's upper edge lies past the next tick at clock 0 already.
    pub const NEVER: u64 = 0;
    /// There is a clock.
    pub const AT: u64 = 1;
}

/// Where each word of a full tick stands.
pub mod full_tick_word {
    /// One of [`full_tick_kind`](super::full_tick_kind).
    pub const KIND: usize = 0;
    /// The tick; 0 where there is none.
    pub const TICK: usize = 1;
}

/// The kinds of a full tick.
pub mod full_tick_kind {
    /// The tick would lie below 0 or over its limit.
    pub const NOWHERE: u64 = 0;
    /// There is a tick.
    pub const AT: u64 = 1;
}

/// Where each word stands that tells of a reading. Both are 0 where the file is accepted.
pub mod read_word {
    /// The refused line, counted from 1.
    pub const LINE: usize = 0;
    /// How far its start lies from the next tick; 0 where the answer is not 4 or 5.
    pub const DISTANCE: usize = 1;
}

/// True where record and table agree, so that they are a timeline; false also where the record is
/// not of 12 words.
///
/// The archive has no function for this alone. Asked for the runs that touch tick 0, it refuses
/// for disagreement and for nothing else.
///
/// ```
/// use flonterri::words::{self, word, RECORD_WORDS};
///
/// let (mut record, mut table) = ([0; RECORD_WORDS], [0; 30]);
/// assert!(!words::agree(&record, &table));
/// assert_eq!(words::open(&mut record, &mut table, 1000, 0, 0, 0, 0, 1, 0, 0), 0);
/// assert!(words::agree(&record, &table));
/// record[word::RUNS_USED] = 1;
/// assert!(!words::agree(&record, &table));
/// ```
pub fn agree(record: &[u64], table: &[u64]) -> bool {
    touching(record, table, 0, 1, &mut [0; TOUCHING_WORDS]) == 0
}

/// Declares calls of the archive, each once: what C sees of it and what Rust sees cannot differ. A slice
/// passes as its pointer and its length.
macro_rules! calls {
    ($($(#[$doc:meta])* fn $name:ident = $archive:ident($($parameters:tt)*);)*) => {
        $(calls! { @call [$(#[$doc])*] $name $archive [] [] [] $($parameters)* })*
    };
    // a slice that the call may write
    (@call $docs:tt $name:ident $archive:ident [$($rust:tt)*] [$($c:tt)*] [$($passed:tt)*]
        $slice:ident: &mut [$of:ty], $($more:tt)*) => {
        calls! { @call $docs $name $archive [$($rust)* $slice: &mut [$of],]
            [$($c)* _: *mut $of, _: usize,] [$($passed)* $slice.as_mut_ptr(), $slice.len(),] $($more)* }
    };
    // a slice that it only reads
    (@call $docs:tt $name:ident $archive:ident [$($rust:tt)*] [$($c:tt)*] [$($passed:tt)*]
        $slice:ident: &[$of:ty], $($more:tt)*) => {
        calls! { @call $docs $name $archive [$($rust)* $slice: &[$of],]
            [$($c)* _: *const $of, _: usize,] [$($passed)* $slice.as_ptr(), $slice.len(),] $($more)* }
    };
    // a number
    (@call $docs:tt $name:ident $archive:ident [$($rust:tt)*] [$($c:tt)*] [$($passed:tt)*]
        $number:ident: $of:ty, $($more:tt)*) => {
        calls! { @call $docs $name $archive [$($rust)* $number: $of,]
            [$($c)* _: $of,] [$($passed)* $number,] $($more)* }
    };
    (@call [$($docs:tt)*] $name:ident $archive:ident [$($rust:tt)*] [$($c:tt)*] [$($passed:tt)*]) => {
        $($docs)*
        #[allow(clippy::too_many_arguments)]
        pub fn $name($($rust)*) -> u32 {
            extern "C" {
                fn $archive($($c)*) -> u32;
            }
            // SAFETY: each slice passes with its own length, and one that may be written is borrowed
            // uniquely. The function reads and writes nothing else and keeps no pointer.
            unsafe { $archive($($passed)*) }
        }
    };
}

calls! {
    /// Opens a timeline: writes the record and zeroes the table. It takes any words for both, since it
    /// reads none. `update` is the update period.
    ///
    /// Refusal 1, which zeroes the record and leaves the table as it came; and 2 for the record's
    /// length alone, which leaves both as they came.
    ///
    /// ```
    /// use flonterri::words::{self, RECORD_WORDS};
    ///
    /// let (mut record, mut table) = ([7; RECORD_WORDS], [7; 30]);
    /// assert_eq!(words::open(&mut record, &mut table, 0, 0, 0, 0, 0, 1, 0, 0), 1);
    /// assert_eq!((record, table), ([0; RECORD_WORDS], [7; 30]));
    /// assert_eq!(words::open(&mut record, &mut table, 1000, 0, 0, 0, 0, 1, 0, 0), 0);
    /// assert_eq!(table, [0; 30]);
    /// ```
    fn open = flonterri_open(
        record: &mut [u64],
        table: &mut [u64],
        timescale: u32,
        offset: u64,
        start: u64,
        duration: u64,
        depth: u64,
        first_number: u32,
        update: u64,
        first_tick: u64,
    );

    /// Appends by full tick. `out` is 1 word, the distance: how many ticks the start lies after the next
    /// tick where the answer is 4, or before it where it is 5, never 0. Any other answer leaves `out` as
    /// it came.
    ///
    /// Refusals 2, 3, 4 or 5, 6, 7, 8, 9, in this order, and 15 for the length of `out`; each leaves
    /// record and table as they came.
    ///
    /// ```
    /// use flonterri::words::{self, RECORD_WORDS};
    ///
    /// let (mut record, mut table) = ([0; RECORD_WORDS], [0; 30]);
    /// assert_eq!(words::open(&mut record, &mut table, 1000, 0, 0, 0, 10_000, 1, 0, 0), 0);
    /// let mut out = [0; words::DISTANCE_WORDS];
    /// assert_eq!(words::append(&mut record, &mut table, 0, 4000, 5, &mut out), 0);
    /// assert_eq!((table[..3].to_vec(), out), (vec![0, 4000, 5], [0]));
    /// assert_eq!(words::append(&mut record, &mut table, 24_000, 4000, 1, &mut out), 4);
    /// assert_eq!(out, [4000]);
    /// ```
    fn append = flonterri_append(
        record: &mut [u64],
        table: &mut [u64],
        start: u64,
        duration: u32,
        count: u32,
        out: &mut [u64],
    );

    /// Appends by stamp, `out` as for [`append`]. The distance goes round the circle of 2^32 ticks: a gap
    /// is by 2^31 - 1 at most, an overlap by 2^31.
    ///
    /// Refusals 2, 3, 4 or 5, 6, 7, 8, 9, in this order, and 15 for the length of `out`; each leaves
    /// record and table as they came.
    ///
    /// ```
    /// use flonterri::words::{self, RECORD_WORDS};
    ///
    /// let (mut record, mut table) = ([0; RECORD_WORDS], [0; 30]);
    /// let first_tick = 4_294_970_000;
    /// assert_eq!(words::open(&mut record, &mut table, 1000, 0, 0, 0, 0, 1, 0, first_tick), 0);
    /// let mut out = [0; words::DISTANCE_WORDS];
    /// assert_eq!(words::append_stamp(&mut record, &mut table, 2703, 1, 1, &mut out), 5);
    /// assert_eq!(out, [1]);
    /// assert_eq!(words::append_stamp(&mut record, &mut table, 2704, 1, 1, &mut out), 0);
    /// ```
    fn append_stamp = flonterri_append_stamp(
        record: &mut [u64],
        table: &mut [u64],
        stamp: u32,
        duration: u32,
        count: u32,
        out: &mut [u64],
    );

    /// Trims at a clock.
    ///
    /// Refusals 2, 10, in this order; each leaves record and table as they came.
    ///
    /// ```
    /// use flonterri::words::{self, RECORD_WORDS};
    ///
    /// let (mut record, mut table) = ([0; RECORD_WORDS], [0; 30]);
    /// assert_eq!(words::open(&mut record, &mut table, 1000, 0, 0, 0, 10_000, 1, 0, 0), 0);
    /// assert_eq!(words::append(&mut record, &mut table, 0, 4000, 5, &mut [0]), 0);
    /// assert_eq!(words::trim(&mut record, &mut table, 18_000), 0);
    /// assert_eq!(table[..3], [8000, 4000, 3]);
    /// ```
    fn trim = flonterri_trim(record: &mut [u64], table: &mut [u64], clock: u64,);

    /// Appends by stamp and then trims at a clock, as one call; `out` as for [`append_stamp`]. Which
    /// references are spent at once, and whether there is room, goes by the greatest clock before the
    /// call.
    ///
    /// Refusals 2, 10, 3, 4 or 5, 6, 7, 8, 9, in this order, and 15 for the length of `out`; each leaves
    /// record and table as they came.
    ///
    /// ```
    /// use flonterri::words::{self, RECORD_WORDS};
    ///
    /// let (mut record, mut table) = ([0; RECORD_WORDS], [0; 30]);
    /// assert_eq!(words::open(&mut record, &mut table, 1000, 0, 0, 0, 10_000, 1, 0, 0), 0);
    /// let mut out = [0; words::DISTANCE_WORDS];
    /// assert_eq!(words::append_trim(&mut record, &mut table, 0, 4000, 5, 18_000, &mut out), 0);
    /// assert_eq!(table[..3], [8000, 4000, 3]);
    /// assert_eq!(words::append_trim(&mut record, &mut table, 24_000, 4000, 1, 28_000, &mut out), 4);
    /// assert_eq!((table[..3].to_vec(), out), (vec![8000, 4000, 3], [4000]));
    /// ```
    fn append_trim = flonterri_append_trim(
        record: &mut [u64],
        table: &mut [u64],
        stamp: u32,
        duration: u32,
        count: u32,
        clock: u64,
        out: &mut [u64],
    );

    /// The verdict at a clock, over the window that ends at the clock plus the update period. `out` is
    /// [`VERDICT_WORDS`] words, in the order that [`verdict_word`] tells.
    ///
    /// Refusals 2, 10, 11, in this order, and 15 for the length of `out`; each leaves `out` as it came.
    ///
    /// ```
    /// use flonterri::words::{self, RECORD_WORDS};
    ///
    /// let (mut record, mut table) = ([0; RECORD_WORDS], [0; 30]);
    /// assert_eq!(words::open(&mut record, &mut table, 1000, 0, 0, 0, 10_000, 1, 0, 0), 0);
    /// assert_eq!(words::append(&mut record, &mut table, 0, 4000, 5, &mut [0]), 0);
    /// let mut out = [0; words::VERDICT_WORDS];
    /// assert_eq!(words::verdict(&record, &table, 20_001, &mut out), 0);
    /// assert_eq!(out, [words::verdict_kind::LACKING, 10_000, 9_999, 20_000, 99]);
    /// ```
    fn verdict = flonterri_verdict(record: &[u64], table: &[u64], clock: u64, out: &mut [u64],);

    /// The verdict of the whole period, `out` as for [`verdict`].
    ///
    /// Refusals 2, 19, in this order, and 15 for the length of `out`; each leaves `out` as it came.
    ///
    /// ```
    /// use flonterri::words::{self, RECORD_WORDS};
    ///
    /// let (mut record, mut table) = ([0; RECORD_WORDS], [0; 30]);
    /// assert_eq!(words::open(&mut record, &mut table, 3, 0, 0, 500, 0, 0, 0, 0), 0);
    /// let mut out = [0; words::VERDICT_WORDS];
    /// assert_eq!(words::verdict_whole(&record, &table, &mut out), 0);
    /// assert_eq!(out, [words::verdict_kind::LACKING, 2, 0, 0, 0]);
    /// ```
    fn verdict_whole = flonterri_verdict_whole(record: &[u64], table: &[u64], out: &mut [u64],);

    /// The availability of a number. `out` is [`AVAILABILITY_WORDS`] words, in the order that
    /// [`availability_word`] tells, in signed grains from availabilityStartTime.
    ///
    /// Refusals 2, 13, in this order, and 15 for the length of `out`; each leaves `out` as it came. A
    /// number that no kept reference has is 13, whatever its size; so is each over 2^32 - 1.
    ///
    /// ```
    /// use flonterri::words::{self, RECORD_WORDS};
    ///
    /// let (mut record, mut table) = ([0; RECORD_WORDS], [0; 30]);
    /// assert_eq!(words::open(&mut record, &mut table, 1000, 0, 0, 0, 10_000, 1, 0, 0), 0);
    /// assert_eq!(words::append(&mut record, &mut table, 0, 4000, 5, &mut [0]), 0);
    /// let mut out = [0; words::AVAILABILITY_WORDS];
    /// assert_eq!(words::availability(&record, &table, 3, &mut out), 0);
    /// assert_eq!(out, [words::availability_kind::ENDS, 12_000_000, 26_000_000]);
    /// assert_eq!(words::availability(&record, &table, 6, &mut out), 13);
    /// ```
    fn availability = flonterri_availability(
        record: &[u64],
        table: &[u64],
        number: u64,
        out: &mut [i64],
    );

    /// The runs that touch the ticks from a to b, b excluded. `out` is [`TOUCHING_WORDS`] words, in the
    /// order that [`touching_word`] tells.
    ///
    /// Refusals 2, 14, in this order, and 15 for the length of `out`; each leaves `out` as it came.
    ///
    /// ```
    /// use flonterri::words::{self, RECORD_WORDS};
    ///
    /// let (mut record, mut table) = ([0; RECORD_WORDS], [0; 30]);
    /// assert_eq!(words::open(&mut record, &mut table, 1000, 0, 0, 0, 10_000, 1, 0, 0), 0);
    /// assert_eq!(words::append(&mut record, &mut table, 0, 4000, 5, &mut [0]), 0);
    /// let mut out = [0; words::TOUCHING_WORDS];
    /// assert_eq!(words::touching(&record, &table, 19_999, 30_000, &mut out), 0);
    /// assert_eq!(out, [0, 3]);
    /// ```
    fn touching = flonterri_touching(
        record: &[u64],
        table: &[u64],
        a: u64,
        b: u64,
        out: &mut [u64],
    );

    /// The covered edge: the greatest clock within its limit at which the window's upper edge is at or
    /// before the next tick. `out` is [`EDGE_WORDS`] words, in the order that [`edge_word`] tells.
    ///
    /// Refusal 2, and 15 for the length of `out`; each leaves `out` as it came.
    ///
    /// ```
    /// use flonterri::words::{self, RECORD_WORDS};
    ///
    /// let (mut record, mut table) = ([0; RECORD_WORDS], [0; 30]);
    /// assert_eq!(words::open(&mut record, &mut table, 1000, 0, 0, 0, 10_000, 1, 0, 0), 0);
    /// assert_eq!(words::append(&mut record, &mut table, 0, 4000, 5, &mut [0]), 0);
    /// let mut out = [0; words::EDGE_WORDS];
    /// assert_eq!(words::covered_edge(&record, &table, &mut out), 0);
    /// assert_eq!(out, [words::edge_kind::AT, 20_000]);
    /// ```
    fn covered_edge = flonterri_covered_edge(record: &[u64], table: &[u64], out: &mut [u64],);

    /// Whether the reference of a number is available at a clock. `out` is 1 word: 1 where it is, else 0.
    ///
    /// Refusals 2, 10, 13, in this order, and 15 for the length of `out`; each leaves `out` as it came. A
    /// number over 2^32 - 1 is 13.
    ///
    /// ```
    /// use flonterri::words::{self, RECORD_WORDS};
    ///
    /// let (mut record, mut table) = ([0; RECORD_WORDS], [0; 30]);
    /// assert_eq!(words::open(&mut record, &mut table, 1000, 0, 0, 0, 10_000, 1, 0, 0), 0);
    /// assert_eq!(words::append(&mut record, &mut table, 0, 4000, 5, &mut [0]), 0);
    /// let mut out = [7; words::AVAILABLE_WORDS];
    /// assert_eq!(words::available_at(&record, &table, 3, 11_999, &mut out), 0);
    /// assert_eq!(out, [0]);
    /// assert_eq!(words::available_at(&record, &table, 3, 12_000, &mut out), 0);
    /// assert_eq!(out, [1]);
    /// ```
    fn available_at = flonterri_available_at(
        record: &[u64],
        table: &[u64],
        number: u64,
        clock: u64,
        out: &mut [u64],
    );

    /// The full tick of a stamp: the one within half a circle of the next tick that has these low 32
    /// bits; one exactly 2^31 away lies behind. `out` is [`FULL_TICK_WORDS`] words, in the order that
    /// [`full_tick_word`] tells.
    ///
    /// Refusal 2, and 15 for the length of `out`; each leaves `out` as it came.
    ///
    /// ```
    /// use flonterri::words::{self, RECORD_WORDS};
    ///
    /// let (mut record, mut table) = ([0; RECORD_WORDS], [0; 30]);
    /// let first_tick = 4_294_970_000;
    /// assert_eq!(words::open(&mut record, &mut table, 1000, 0, 0, 0, 0, 1, 0, first_tick), 0);
    /// let mut out = [0; words::FULL_TICK_WORDS];
    /// assert_eq!(words::full_tick(&record, &table, 2705, &mut out), 0);
    /// assert_eq!(out, [words::full_tick_kind::AT, first_tick + 1]);
    /// ```
    fn full_tick = flonterri_full_tick(
        record: &[u64],
        table: &[u64],
        stamp: u32,
        out: &mut [u64],
    );

    /// Reads a file into record and table, which may hold any words before. A head of kind 01 has no
    /// update period, and is read with 0. `out` is [`READ_WORDS`] words, in the order that [`read_word`]
    /// tells.
    ///
    /// Refusals 1, 3 to 9, 16, 17, 18 by a line: the first refused line decides, and on a line 16 comes
    /// first, then 17, then its fields. Each zeroes record and table and writes both words of `out`. And
    /// for the lengths alone 2, then 15, which leave record, table and `out` as they came.
    ///
    /// ```
    /// use flonterri::words::{self, RECORD_WORDS};
    ///
    /// let (mut record, mut table, mut out) = ([7; RECORD_WORDS], [7; 30], [7; words::READ_WORDS]);
    /// assert_eq!(words::read(b"not a file\n", &mut record, &mut table, &mut out), 16);
    /// assert_eq!((record, table, out), ([0; RECORD_WORDS], [0; 30], [1, 0]));
    /// ```
    fn read = flonterri_read(
        bytes: &[u8],
        record: &mut [u64],
        table: &mut [u64],
        out: &mut [u64],
    );

    /// Writes the file into the front of an output; the bytes behind it stay as they came. Its head is
    /// of kind 05, also where the update period is 0. `out` is 1 word: the length.
    ///
    /// Refusals 2, 12, 15, in this order: 15 for bytes that are fewer than the file's, and before all
    /// but the record's length for that of `out`. Each leaves the bytes and `out` as they came.
    ///
    /// ```
    /// use flonterri::words::{self, RECORD_WORDS};
    ///
    /// let (mut record, mut table) = ([0; RECORD_WORDS], [0; 30]);
    /// assert_eq!(words::open(&mut record, &mut table, 1000, 0, 0, 0, 10_000, 1, 0, 0), 0);
    /// assert_eq!(words::append(&mut record, &mut table, 0, 4000, 5, &mut [0]), 0);
    /// let (mut bytes, mut out) = ([0; 200], [0]);
    /// assert_eq!(words::write(&record, &table, &mut bytes, &mut out), 0);
    /// assert_eq!(out, [99 + 35 + 11]);
    /// assert_eq!(bytes[..10], *b"05000003e8");
    /// ```
    fn write = flonterri_write(record: &[u64], table: &[u64], bytes: &mut [u8], out: &mut [u64],);
}
