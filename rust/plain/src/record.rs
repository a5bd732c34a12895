//! The record and the table as words, and their agreement. Paper: "Record and table".

use crate::reference::Run;
use crate::refusal::Refusal;
use crate::timeline::{store, totals_held, Timeline};
use crate::units::{Millis, RefDuration, Tick};
use crate::window::{Head, HeadFields};

/// Words in a record: timescale, offset, start, duration, depth, first number, update period,
/// accepted, dropped, next tick, greatest clock, runs used.
pub const RECORD_WORDS: usize = 12;

/// Words in a run: start, duration, count.
pub const RUN_WORDS: usize = 3;

/// How many runs a table of so many words can hold: the words divided by 3, rounded down.
pub fn capacity(table_words: usize) -> usize {
    table_words / RUN_WORDS
}

/// The timeline that a record and a table stand for. Refusal 2 where they disagree.
///
/// The words may be anything. They are judged run by run, over the integers, and nothing is
/// expanded to references before all of it has been judged.
pub fn decode(record: &[u64], table: &[u64]) -> Result<Timeline, Refusal> {
    let words = Words::of(record).ok_or(Refusal::Disagree)?;
    let judged = words.judge(table).ok_or(Refusal::Disagree)?;
    Ok(judged.expand(capacity(table.len())))
}

/// Puts a timeline into a record and a table: the runs stand first, all words behind are 0.
/// The record must be of 12 words, and the table must have room for the runs.
pub fn encode(timeline: &Timeline, record: &mut [u64], table: &mut [u64]) {
    let runs = timeline.runs();
    let head = timeline.head();
    record.copy_from_slice(&[
        u64::from(head.timescale.get()),
        head.offset.get(),
        head.start.get(),
        head.duration.get(),
        head.depth.get(),
        u64::from(head.first_number.get()),
        head.update.get(),
        timeline.accepted(),
        timeline.dropped(),
        timeline.next_tick().get(),
        timeline.greatest_clock().get(),
        runs.len() as u64,
    ]);
    table.fill(0);
    for (words, run) in table.chunks_exact_mut(RUN_WORDS).zip(&runs) {
        words.copy_from_slice(&[run.start.get(), u64::from(run.duration.get()), run.count]);
    }
}

/// Whether the reference of a number is available at a clock in milliseconds, asked of words.
/// Refusals 2, 10, 13.
pub fn available_at(
    record: &[u64],
    table: &[u64],
    number: u32,
    clock: u64,
) -> Result<bool, Refusal> {
    decode(record, table)?.available_at(number, clock)
}

/// The words of a record by name, not judged yet.
struct Words {
    timescale: u64,
    offset: u64,
    start: u64,
    duration: u64,
    depth: u64,
    first_number: u64,
    update: u64,
    accepted: u64,
    dropped: u64,
    next_tick: u64,
    greatest_clock: u64,
    runs_used: u64,
}

/// A record and a table that agree, not expanded yet.
struct Judged {
    head: Head,
    accepted: u64,
    dropped: u64,
    next_tick: Tick,
    greatest_clock: Millis,
    runs: Vec<Run>,
}

impl Words {
    /// The words of a record, if there are as many as there should be.
    fn of(record: &[u64]) -> Option<Words> {
        let words = <[u64; RECORD_WORDS]>::try_from(record).ok()?;
        Some(Words {
            timescale: words[0],
            offset: words[1],
            start: words[2],
            duration: words[3],
            depth: words[4],
            first_number: words[5],
            update: words[6],
            accepted: words[7],
            dropped: words[8],
            next_tick: words[9],
            greatest_clock: words[10],
            runs_used: words[11],
        })
    }

    /// The agreement of record and table: every condition of "Record and table".
    fn judge(&self, table: &[u64]) -> Option<Judged> {
        let judged = Judged {
            head: self.head()?,
            accepted: self.accepted,
            dropped: self.dropped,
            next_tick: Tick::new(self.next_tick)?,
            greatest_clock: Millis::new(self.greatest_clock)?,
            runs: used_runs(self.runs_used, table)?,
        };
        if judged.runs_join() && judged.totals_agree() && judged.references_agree() {
            Some(judged)
        } else {
            None
        }
    }

    fn head(&self) -> Option<Head> {
        HeadFields {
            timescale: self.timescale,
            offset: self.offset,
            start: self.start,
            duration: self.duration,
            depth: self.depth,
            first_number: u32::try_from(self.first_number).ok()?,
            update: self.update,
        }
        .judge()
        .ok()
    }
}

/// The used runs, if there are at most as many as the capacity, each is within its limits, and
/// all words after them are 0.
fn used_runs(runs_used: u64, table: &[u64]) -> Option<Vec<Run>> {
    let runs_used = usize::try_from(runs_used).ok()?;
    if runs_used > capacity(table.len()) {
        return None;
    }
    let (used, unused) = table.split_at(runs_used * RUN_WORDS);
    if unused.iter().any(|word| *word != 0) {
        return None;
    }
    used.chunks_exact(RUN_WORDS).map(run_of_words).collect()
}

/// A run, if its start and end are within the limit of ticks, its duration is 1 to 2^32 - 1 and
/// its count is at least 1. The end is taken over the integers, so no count can wrap it.
fn run_of_words(words: &[u64]) -> Option<Run> {
    let run = Run {
        start: Tick::new(words[0])?,
        duration: RefDuration::new(words[1])?,
        count: words[2],
    };
    if run.count >= 1 && run.end().limited().is_some() {
        Some(run)
    } else {
        None
    }
}

impl Judged {
    /// Used runs join end to start, neighbours differ in duration, and the last end, if any,
    /// equals the next tick.
    fn runs_join(&self) -> bool {
        let neighbours_join = self
            .runs
            .windows(2)
            .all(|pair| pair[0].end() == pair[1].start.wide());
        let neighbours_differ = self
            .runs
            .windows(2)
            .all(|pair| pair[0].duration != pair[1].duration);
        let last_end = self.runs.last().map(|run| run.end());
        neighbours_join
            && neighbours_differ
            && last_end.map_or(true, |end| end == self.next_tick.wide())
    }

    /// Dropped at most accepted, the total of counts equal to accepted less dropped, and the two
    /// limits of refusal 7 held.
    fn totals_agree(&self) -> bool {
        let total: i128 = self.runs.iter().map(|run| i128::from(run.count)).sum();
        self.dropped <= self.accepted
            && total == i128::from(self.accepted) - i128::from(self.dropped)
            && totals_held(self.head.first_number, i128::from(self.accepted))
    }

    /// Every start before the period end, and no reference spent at the greatest clock.
    ///
    /// Both are asked of every reference. Starts rise along a run, so if its last reference
    /// starts before the period end all do. Then the spent references of a run stand first, see
    /// [`Head::spent_count`], so if its first reference is not spent none is.
    fn references_agree(&self) -> bool {
        let clock = self.greatest_clock.grains(self.head.timescale);
        self.runs.iter().all(|run| {
            let last = run.reference(run.count - 1);
            let last_start = self.head.place(last.start.wide());
            !self.head.past_period(last_start) && !self.head.spent(run.reference(0), clock)
        })
    }

    fn expand(self, capacity: usize) -> Timeline {
        let mut kept = Vec::new();
        for run in &self.runs {
            store(&mut kept, *run, 0);
        }
        Timeline {
            head: self.head,
            capacity,
            accepted: self.accepted,
            dropped: self.dropped,
            next_tick: self.next_tick,
            greatest_clock: self.greatest_clock,
            kept,
        }
    }
}
