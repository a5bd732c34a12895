//! The words of a record and a table by name, for choosing what to try next. The words may be
//! anything; nothing here judges.

use flonterri::words::{word, RUN_WORDS};

use crate::limits;
use crate::opening::Opening;
use crate::step::Lent;
use crate::text::{head_fields, s_fields, ALL_ONES};

/// A run's words.
#[derive(Clone, Copy, Debug, PartialEq, Eq)]
pub struct Run {
    /// Start.
    pub start: u64,
    /// Duration.
    pub duration: u64,
    /// Count.
    pub count: u64,
}

impl Run {
    /// Where it ends.
    pub fn end(self) -> u64 {
        self.start
            .saturating_add(self.duration.saturating_mul(self.count))
    }
}

/// A record's words.
#[derive(Clone, Debug)]
pub struct State {
    /// Ticks a second.
    pub timescale: u64,
    /// Presentation time offset.
    pub offset: u64,
    /// Period start.
    pub start: u64,
    /// Period duration.
    pub duration: u64,
    /// Window depth.
    pub depth: u64,
    /// First number.
    pub first_number: u64,
    /// Update period.
    pub update: u64,
    /// References accepted.
    pub accepted: u64,
    /// References dropped.
    pub dropped: u64,
    /// Next tick.
    pub next_tick: u64,
    /// Greatest clock.
    pub greatest_clock: u64,
    /// Used runs.
    pub runs: Vec<Run>,
}

impl State {
    /// What stands in the memory.
    pub fn of(lent: &Lent) -> State {
        let at = |place: usize| lent.record.get(place).copied().unwrap_or(0);
        State {
            timescale: at(word::TIMESCALE),
            offset: at(word::OFFSET),
            start: at(word::START),
            duration: at(word::DURATION),
            depth: at(word::DEPTH),
            first_number: at(word::FIRST_NUMBER),
            update: at(word::UPDATE_PERIOD),
            accepted: at(word::ACCEPTED),
            dropped: at(word::DROPPED),
            next_tick: at(word::NEXT_TICK),
            greatest_clock: at(word::GREATEST_CLOCK),
            runs: lent
                .table
                .chunks_exact(RUN_WORDS)
                .map(|words| Run {
                    start: words[0],
                    duration: words[1],
                    count: words[2],
                })
                .take(at(word::RUNS_USED).min(1 << 20) as usize)
                .collect(),
        }
    }

    /// What an opening leaves.
    pub fn opened(opening: &Opening) -> State {
        State {
            timescale: u64::from(opening.timescale),
            offset: opening.offset,
            start: opening.start,
            duration: opening.duration,
            depth: opening.depth,
            first_number: u64::from(opening.first_number),
            update: opening.update,
            accepted: 0,
            dropped: 0,
            next_tick: opening.first_tick,
            greatest_clock: 0,
            runs: Vec::new(),
        }
    }

    /// About what a reading of a file leaves, its runs aside: it stops at the first line that a
    /// limit refuses. None where no head stands first.
    pub fn after_reading(file: &[u8]) -> Option<State> {
        let mut lines = file.split(|byte| *byte == b'\n');
        let mut state = State::opened(&head_fields(lines.next()?)?);
        for (at, (t, d, r)) in lines.map_while(s_fields).enumerate() {
            if at == 0 && t != ALL_ONES {
                state.next_tick = t;
            }
            let count = match u64::try_from(r) {
                Ok(repeats) => repeats + 1,
                Err(_) => state.count_to_period_end(d).unwrap_or(0),
            };
            if state.passes_limits(d, count) {
                break;
            }
            state.dropped += state.spent_at_once(d, count);
            state.accepted += count;
            state.next_tick += u64::from(d) * count;
        }
        Some(state)
    }

    /// True where no timeline has been opened here, or a refusal has zeroed it.
    pub fn is_closed(&self) -> bool {
        self.timescale == 0 || self.timescale > limits::TIMESCALE
    }

    /// How many references are kept.
    pub fn kept(&self) -> u64 {
        self.accepted.saturating_sub(self.dropped)
    }

    /// The number of the first kept reference.
    pub fn first_kept_number(&self) -> u64 {
        self.first_number.saturating_add(self.dropped)
    }

    /// Grains of the period end, counted from the period start, where it is known.
    fn period_end(&self) -> Option<i128> {
        match self.duration {
            0 => None,
            duration => Some(i128::from(duration) * i128::from(self.timescale)),
        }
    }

    /// Grains from the period start to a tick.
    fn place(&self, tick: u64) -> i128 {
        (i128::from(tick) - i128::from(self.offset)) * 1000
    }

    /// A millisecond at which a tick's place leaves the window or just has left it.
    pub fn clock_that_passes(&self, tick: u64) -> u64 {
        self.clock_past(tick, i128::from(self.depth))
    }

    /// A millisecond at which a tick's place comes into the window or just has come.
    pub fn clock_that_reaches(&self, tick: u64) -> u64 {
        self.clock_past(tick, -i128::from(self.update))
    }

    /// So many milliseconds past a tick's place, or at clock 0 where that lies before it.
    fn clock_past(&self, tick: u64, later: i128) -> u64 {
        let timescale = i128::from(self.timescale.max(1));
        let millis = self.place(tick).div_euclid(timescale) + i128::from(self.start) + later;
        millis.clamp(0, i128::from(u64::MAX)) as u64
    }

    /// About the milliseconds from which and up to which the reference of a number is available,
    /// where it is kept.
    pub fn availability_of(&self, number: u64) -> Option<(u64, u64)> {
        let mut behind = number.checked_sub(self.first_kept_number())?;
        for run in &self.runs {
            if behind < run.count {
                let ended = run.duration.saturating_mul(behind + 1);
                let end = run.start.saturating_add(ended);
                let from = self.clock_that_passes(end).saturating_sub(self.depth);
                let to = self.clock_that_passes(end.saturating_add(run.duration));
                return Some((from, to));
            }
            behind -= run.count;
        }
        None
    }

    /// How many references of this duration from the next tick on start before the period end;
    /// none where the end is unknown.
    pub fn count_to_period_end(&self, duration: u32) -> Option<u64> {
        let step = i128::from(duration) * 1000;
        let way = self.period_end()? - self.place(self.next_tick);
        if way <= 0 || step == 0 {
            return Some(0);
        }
        Some(((way + step - 1) / step).min(1 << 62) as u64)
    }

    /// How many of so many references of a duration from the next tick on are spent at the
    /// greatest clock already.
    pub fn spent_at_once(&self, duration: u32, count: u64) -> u64 {
        let timescale = i128::from(self.timescale);
        let since_start = i128::from(self.greatest_clock) - i128::from(self.start);
        let edge = match self.depth {
            0 => 0,
            depth => ((since_start - i128::from(depth)) * timescale).max(0),
        };
        if self.period_end().map_or(false, |end| end <= edge) {
            return count;
        }
        let way = edge - self.place(self.next_tick);
        let step = i128::from(duration.max(1)) * 1000;
        way.div_euclid(step).clamp(0, i128::from(count)) as u64
    }

    /// True where so many references of a duration pass the limits of ticks or counts, or the
    /// period end.
    pub fn passes_limits(&self, duration: u32, count: u64) -> bool {
        let end = u128::from(duration) * u128::from(count) + u128::from(self.next_tick);
        let accepted = u128::from(count) + u128::from(self.accepted);
        end > u128::from(limits::TICK)
            || accepted > u128::from(limits::ACCEPTED)
            || accepted + u128::from(self.first_number) > u128::from(limits::NUMBER)
            || self
                .count_to_period_end(duration)
                .map_or(false, |most| count > most)
    }

    /// How many of so many references an append would store.
    pub fn stores(&self, duration: u32, count: u64) -> u64 {
        if self.passes_limits(duration, count) {
            0
        } else {
            count - self.spent_at_once(duration, count)
        }
    }
}
