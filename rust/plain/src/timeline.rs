//! Opening, appending and trimming. Paper: "Record and table", "Append and trim".

use crate::reference::{runs_of, Reference, Run};
use crate::refusal::Refusal;
use crate::units::{Distance, Grains, Millis, Number, RefDuration, Tick};
use crate::window::{Head, HeadFields};

/// The most references ever accepted: 2^31.
pub const MOST_ACCEPTED: i128 = 1 << 31;

/// The most that first number plus accepted may be: 2^32 - 1.
pub const MOST_NUMBER: i128 = (1 << 32) - 1;

/// One representation in one period, its kept references as a plain vector.
///
/// A value of this type always agrees in the sense of "Record and table": it comes from opening,
/// from reading a file, or from words that have been judged to agree, and every accepted call
/// keeps agreement. So refusal 2 is given where words are taken in, see [`crate::record`].
#[derive(Clone, Debug, PartialEq, Eq)]
pub struct Timeline {
    pub(crate) head: Head,
    /// How many runs the table can hold.
    pub(crate) capacity: usize,
    pub(crate) accepted: u64,
    pub(crate) dropped: u64,
    pub(crate) next_tick: Tick,
    pub(crate) greatest_clock: Millis,
    pub(crate) kept: Vec<Reference>,
}

/// What the paper asks of the totals: accepted at most 2^31, first number plus accepted at most
/// 2^32 - 1.
pub(crate) fn totals_held(first_number: Number, accepted: i128) -> bool {
    accepted <= MOST_ACCEPTED && i128::from(first_number.get()) + accepted <= MOST_NUMBER
}

impl Timeline {
    /// Opening with fields as they come. Refusal 1.
    pub fn open(fields: HeadFields, first_tick: u64, capacity: usize) -> Result<Self, Refusal> {
        let head = fields.judge()?;
        let first_tick = Tick::new(first_tick).ok_or(Refusal::OverLimit)?;
        Ok(Timeline::opened(head, first_tick, capacity))
    }

    /// Opening with fields already judged.
    pub fn opened(head: Head, first_tick: Tick, capacity: usize) -> Self {
        Timeline {
            head,
            capacity,
            accepted: 0,
            dropped: 0,
            next_tick: first_tick,
            greatest_clock: Millis::ZERO,
            kept: Vec::new(),
        }
    }

    /// The head fields.
    pub fn head(&self) -> &Head {
        &self.head
    }

    /// References accepted.
    pub fn accepted(&self) -> u64 {
        self.accepted
    }

    /// References dropped.
    pub fn dropped(&self) -> u64 {
        self.dropped
    }

    /// The next tick.
    pub fn next_tick(&self) -> Tick {
        self.next_tick
    }

    /// The greatest clock.
    pub fn greatest_clock(&self) -> Millis {
        self.greatest_clock
    }

    /// The used runs.
    pub fn runs(&self) -> Vec<Run> {
        runs_of(&self.kept)
    }

    /// The number of the first kept reference: first number plus dropped. With nothing kept it is
    /// the number that the next reference will bear.
    pub fn first_kept_number(&self) -> Number {
        let number = u64::from(self.head.first_number.get()) + self.dropped;
        Number::new(u32::try_from(number).expect("first number plus accepted is below 2^32"))
    }

    /// An append by full tick, which may be any 64-bit number. Refusals 3, 4 or 5, 6, 7, 8, 9.
    pub fn append(&mut self, start: u64, duration: u32, count: u32) -> Result<(), Refusal> {
        let (duration, count) = above_zero(duration, count)?;
        self.judge_start(start)?;
        self.append_joined(duration, count)
    }

    /// An append by 32-bit stamp. Refusals 3, 4 or 5, 6, 7, 8, 9.
    pub fn append_stamp(&mut self, stamp: u32, duration: u32, count: u32) -> Result<(), Refusal> {
        let (duration, count) = above_zero(duration, count)?;
        judge_join(self.stamp_past_next(stamp))?;
        self.append_joined(duration, count)
    }

    /// The full tick of a stamp: the next tick plus the difference where the stamp joins or is a gap,
    /// and 2^32 ticks before that where it is an overlap; none below 0 or over the limit of a tick.
    pub fn full_tick(&self, stamp: u32) -> Option<Tick> {
        let ticks = self.stamp_past_next(stamp);
        self.next_tick.wide().later(ticks).limited()
    }

    /// The append of a negative r: the least count, at least 1, whose end reaches or passes the
    /// period end. Refusals 3, 4 or 5, 18, 8, 6, 7, 9, in this order.
    pub fn append_to_period_end(&mut self, start: u64, duration: u32) -> Result<(), Refusal> {
        let (duration, _) = above_zero(duration, 1)?;
        self.judge_start(start)?;
        let period_end = self.head.period_end().ok_or(Refusal::NegativeWithoutEnd)?;
        if self
            .head
            .past_period(self.head.place(self.next_tick.wide()))
        {
            return Err(Refusal::StartsPastPeriod);
        }
        let run = Run {
            start: self.next_tick,
            duration,
            count: self.count_to_reach(period_end, duration),
        };
        judge_end(run)?;
        self.judge_totals(run)?;
        self.judge_room(run)?;
        self.take(run);
        Ok(())
    }

    /// A trim: raises the greatest clock to the given one if larger and drops what is spent. An
    /// earlier clock changes nothing and is accepted. Refusal 10.
    pub fn trim(&mut self, clock: u64) -> Result<(), Refusal> {
        let clock = Millis::new(clock).ok_or(Refusal::ClockOverLimit)?;
        self.trim_to(clock);
        Ok(())
    }

    /// An append by stamp and then a trim, as one call. The clock is judged before the append, and a
    /// refused append stops the call. The append knows nothing of the clock: what is spent at once,
    /// and whether there is room, goes by the greatest clock before the call. Refusals 10, 3, 4 or 5,
    /// 6, 7, 8, 9, in this order.
    pub fn append_trim(
        &mut self,
        stamp: u32,
        duration: u32,
        count: u32,
        clock: u64,
    ) -> Result<(), Refusal> {
        let clock = Millis::new(clock).ok_or(Refusal::ClockOverLimit)?;
        self.append_stamp(stamp, duration, count)?;
        self.trim_to(clock);
        Ok(())
    }

    /// What a trim does once its clock is judged.
    fn trim_to(&mut self, clock: Millis) {
        if clock > self.greatest_clock {
            self.greatest_clock = clock;
            self.drop_spent();
        }
    }

    /// The greatest clock in grains.
    fn greatest_clock_grains(&self) -> Grains {
        self.greatest_clock.grains(self.head.timescale)
    }

    fn drop_spent(&mut self) {
        let head = self.head;
        let clock = self.greatest_clock_grains();
        let kept_before = self.kept.len();
        self.kept.retain(|reference| !head.spent(*reference, clock));
        self.dropped += (kept_before - self.kept.len()) as u64;
    }

    /// Refusals 4 and 5 for a full tick.
    fn judge_start(&self, start: u64) -> Result<(), Refusal> {
        judge_join(i128::from(start) - i128::from(self.next_tick.get()))
    }

    /// How many ticks a stamp stands after the next tick, negative where it stands before. That is
    /// stamp less next tick, modulo 2^32: 0 joins, 1 to 2^31 - 1 is a gap by that, and the rest is an
    /// overlap by what is missing to 2^32.
    fn stamp_past_next(&self, stamp: u32) -> i128 {
        let difference = i128::from(stamp) - i128::from(self.next_tick.get());
        match difference.rem_euclid(1 << 32) {
            ahead @ 0..=0x7fff_ffff => ahead,
            rest => rest - (1 << 32),
        }
    }

    /// The rest of an append whose start is the next tick. Refusals 6, 7, 8, 9.
    fn append_joined(&mut self, duration: RefDuration, count: u32) -> Result<(), Refusal> {
        let run = Run {
            start: self.next_tick,
            duration,
            count: u64::from(count),
        };
        judge_end(run)?;
        self.judge_totals(run)?;
        self.judge_period(run)?;
        self.judge_room(run)?;
        self.take(run);
        Ok(())
    }

    /// The least count of references from the next tick on whose end is at or after the period
    /// end. To be asked only where the next tick stands before that end.
    ///
    /// So many references end so many times their duration after the next tick; the least
    /// multiple that is not below the way to the period end is that way divided by the duration,
    /// rounded up. The way is above 0, so the count is at least 1.
    fn count_to_reach(&self, period_end: Grains, duration: RefDuration) -> u64 {
        let way = (period_end - self.head.place(self.next_tick.wide())).get();
        let step = Grains::of_ticks(i128::from(duration.get())).get();
        let count = (way + step - 1) / step;
        u64::try_from(count).expect("a way of less than 2^63 grains")
    }

    /// Refusal 7: the totals, with all references of the append.
    fn judge_totals(&self, run: Run) -> Result<(), Refusal> {
        let accepted = i128::from(self.accepted) + i128::from(run.count);
        if totals_held(self.head.first_number, accepted) {
            Ok(())
        } else {
            Err(Refusal::TooMany)
        }
    }

    /// Refusal 8: a reference starts at or after a known period end. Starts rise, so the last
    /// one is judged.
    fn judge_period(&self, run: Run) -> Result<(), Refusal> {
        let last_start = run.start_of(run.count - 1);
        if self.head.past_period(self.head.place(last_start)) {
            Err(Refusal::StartsPastPeriod)
        } else {
            Ok(())
        }
    }

    /// Refusal 9: a stored part needs a new run and used runs equal capacity.
    fn judge_room(&self, run: Run) -> Result<(), Refusal> {
        let stores_something = self.spent_at_once(run) < run.count;
        let extends_last_run = self.kept.last().map(|last| last.duration) == Some(run.duration);
        if stores_something && !extends_last_run && self.runs().len() >= self.capacity {
            Err(Refusal::TableFull)
        } else {
            Ok(())
        }
    }

    /// How many references of an append are spent at the greatest clock already.
    fn spent_at_once(&self, run: Run) -> u64 {
        self.head.spent_count(run, self.greatest_clock_grains())
    }

    /// An accepted append counts all its references. Those already spent are counted as dropped
    /// at once and not stored; the rest are stored.
    fn take(&mut self, run: Run) {
        let spent = self.spent_at_once(run);
        self.accepted += run.count;
        self.dropped += spent;
        self.next_tick = run.end().limited().expect("judged by refusal 6");
        store(&mut self.kept, run, spent);
    }
}

/// Refusal 3: duration or count 0.
fn above_zero(duration: u32, count: u32) -> Result<(RefDuration, u32), Refusal> {
    match RefDuration::new(u64::from(duration)) {
        Some(duration) if count > 0 => Ok((duration, count)),
        _ => Err(Refusal::ZeroDurationOrCount),
    }
}

/// Refusals 4 and 5 of a start that stands so many ticks after the next tick, or before it where
/// negative.
fn judge_join(ticks_past: i128) -> Result<(), Refusal> {
    let ticks = u64::try_from(ticks_past.abs()).expect("both ticks are of 64 bits");
    match Distance::new(ticks) {
        None => Ok(()),
        Some(distance) if ticks_past > 0 => Err(Refusal::StartAfterNext(distance)),
        Some(distance) => Err(Refusal::StartBeforeNext(distance)),
    }
}

/// Refusal 6: an end over its limit. Ends rise, so the last one is judged.
fn judge_end(run: Run) -> Result<(), Refusal> {
    match run.end().limited() {
        Some(_) => Ok(()),
        None => Err(Refusal::EndOverLimit),
    }
}

/// Stores the references of a run from an index on, one by one. The memory is asked for first,
/// so that a run too long for it ends with a message and not half stored.
pub(crate) fn store(kept: &mut Vec<Reference>, run: Run, from_index: u64) {
    let additional = usize::try_from(run.count - from_index).expect("a count that fits memory");
    kept.try_reserve(additional)
        .expect("memory for every kept reference");
    kept.extend((from_index..run.count).map(|index| run.reference(index)));
}
