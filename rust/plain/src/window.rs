//! The head fields, the window, and what is needed or spent. Paper: "Window, needed, spent".

use crate::reference::{Reference, Run};
use crate::refusal::Refusal;
use crate::units::{Grains, Millis, Number, Span, Tick, Timescale, WideTick};

/// The head fields as they come, not judged yet.
#[derive(Clone, Copy, Debug, PartialEq, Eq)]
pub struct HeadFields {
    /// Ticks a second.
    pub timescale: u64,
    /// Presentation time offset, in ticks.
    pub offset: u64,
    /// Period start, in milliseconds.
    pub start: u64,
    /// Period duration, in milliseconds; 0: end unknown.
    pub duration: u64,
    /// Window depth, in milliseconds; 0: no depth given.
    pub depth: u64,
    /// Number of the first reference ever accepted.
    pub first_number: u32,
    /// Update period, in milliseconds.
    pub update: u64,
}

impl HeadFields {
    /// The head, if every field is within its limit. Refusal 1.
    pub fn judge(self) -> Result<Head, Refusal> {
        Ok(Head {
            timescale: Timescale::new(self.timescale).ok_or(Refusal::OverLimit)?,
            offset: Tick::new(self.offset).ok_or(Refusal::OverLimit)?,
            start: Millis::new(self.start).ok_or(Refusal::OverLimit)?,
            duration: Millis::new(self.duration).ok_or(Refusal::OverLimit)?,
            depth: Millis::new(self.depth).ok_or(Refusal::OverLimit)?,
            first_number: Number::new(self.first_number),
            update: Millis::new(self.update).ok_or(Refusal::OverLimit)?,
        })
    }
}

/// The head fields, each within its limit.
#[derive(Clone, Copy, Debug, PartialEq, Eq)]
pub struct Head {
    /// Ticks a second.
    pub timescale: Timescale,
    /// Presentation time offset: the tick that stands at the period start.
    pub offset: Tick,
    /// Period start, counted from availabilityStartTime.
    pub start: Millis,
    /// Period duration; 0: end unknown.
    pub duration: Millis,
    /// Window depth; 0: no depth given, the window reaches back to the period start.
    pub depth: Millis,
    /// Number of the first reference ever accepted.
    pub first_number: Number,
    /// Update period: how far past the clock the window reaches.
    pub update: Millis,
}

impl Head {
    /// The period start.
    pub fn period_start(&self) -> Grains {
        self.start.grains(self.timescale)
    }

    /// The period end, where it is known.
    pub fn period_end(&self) -> Option<Grains> {
        if self.duration == Millis::ZERO {
            None
        } else {
            Some(self.period_start() + self.duration.grains(self.timescale))
        }
    }

    /// The window depth, where one is given.
    pub fn window_depth(&self) -> Option<Grains> {
        if self.depth == Millis::ZERO {
            None
        } else {
            Some(self.depth.grains(self.timescale))
        }
    }

    /// The update period.
    fn update_period(&self) -> Grains {
        self.update.grains(self.timescale)
    }

    /// Where a tick stands: period start plus the tick less the offset.
    pub fn place(&self, tick: WideTick) -> Grains {
        self.period_start() + Grains::of_ticks(tick.ticks_since(self.offset.wide()))
    }

    /// Where a reference stands, not cut to the period.
    pub fn span(&self, reference: Reference) -> Span<Grains> {
        Span {
            from: self.place(reference.start.wide()),
            to: self.place(reference.end()),
        }
    }

    /// The part of a span within the period; empty where none of it is.
    pub fn cut_to_period(&self, span: Span<Grains>) -> Span<Grains> {
        Span {
            from: span.from.max(self.period_start()),
            to: self.up_to_period_end(span.to),
        }
    }

    /// The earlier of a point and the period end.
    fn up_to_period_end(&self, point: Grains) -> Grains {
        self.period_end().map_or(point, |end| point.min(end))
    }

    /// The window at a clock, given in grains: from the later of period start and c - depth, up
    /// to the earlier of period end and c plus the update period. It may be empty. The sum may pass
    /// the limit of milliseconds.
    pub fn window_at(&self, clock: Grains) -> Span<Grains> {
        let start = self.period_start();
        Span {
            from: self
                .window_depth()
                .map_or(start, |depth| start.max(clock - depth)),
            to: self.up_to_period_end(clock + self.update_period()),
        }
    }

    /// The whole period as a window, where its end is known.
    pub fn whole_period(&self) -> Option<Span<Grains>> {
        self.period_end().map(|end| Span {
            from: self.period_start(),
            to: end,
        })
    }

    /// A reference is needed at c if its half-open span, cut to the period, overlaps the window.
    pub fn needed(&self, reference: Reference, clock: Grains) -> bool {
        self.cut_to_period(self.span(reference))
            .overlaps(self.window_at(clock))
    }

    /// A point at or after a known period end.
    pub fn past_period(&self, point: Grains) -> bool {
        self.period_end().map_or(false, |end| point >= end)
    }

    /// A reference is spent at c, a whole millisecond given in grains, if it is needed neither at
    /// c nor at any later whole millisecond, the clock's limit aside.
    pub fn spent(&self, reference: Reference, clock: Grains) -> bool {
        !self.needed(reference, self.telling_clock(reference, clock))
    }

    /// Of a clock and all later whole milliseconds, one that tells whether the reference is
    /// needed at any of them: the first that, with the update period, lies after the beginning of
    /// the reference's part within the period.
    ///
    /// At an earlier clock the window ends too early to overlap the part. At that one and any
    /// later the window ends late enough, so that the reference is needed exactly if the window
    /// begins before the part ends; and the window's beginning never falls as the clock rises, so
    /// the first such clock is as good as any. Where the part is empty no clock needs it and any
    /// one tells.
    fn telling_clock(&self, reference: Reference, clock: Grains) -> Grains {
        let part = self.cut_to_period(self.span(reference));
        let late_enough = part.from - self.update_period();
        clock.max(self.timescale.first_millisecond_after(late_enough))
    }

    /// How many references of a run are spent at c. To be asked only of a run whose end is within
    /// the limit and whose references all start before the period end.
    ///
    /// For such a reference the paper's comparison holds: it is spent exactly if the earlier of
    /// its end and the period end is at or before the later of period start and c - depth. Ends
    /// rise along the run, so the spent references stand first, and halving finds where they
    /// stop: all references below `least` are spent, none from `most` on is.
    pub fn spent_count(&self, run: Run, clock: Grains) -> u64 {
        let (mut least, mut most) = (0, run.count);
        while least < most {
            let middle = least + (most - least) / 2;
            if self.spent(run.reference(middle), clock) {
                least = middle + 1;
            } else {
                most = middle;
            }
        }
        least
    }

    /// The needed ticks of a window: a tick k is needed if the span from k to k + 1 overlaps it.
    ///
    /// For a window that is not empty, k to k + 1 overlaps it exactly if k stands before its end
    /// and k + 1 after its beginning. Counted in ticks, the first says k is below the end rounded
    /// up, the second says k is at or above the beginning rounded down.
    pub fn needed_ticks(&self, window: Span<Grains>) -> Span<WideTick> {
        let offset = self.offset.wide();
        if window.is_empty() {
            return Span {
                from: offset,
                to: offset,
            };
        }
        Span {
            from: offset.later((window.from - self.period_start()).ticks_down()),
            to: offset.later((window.to - self.period_start()).ticks_up()),
        }
    }
}
