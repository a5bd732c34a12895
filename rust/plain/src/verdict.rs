//! Verdicts and percent. Paper: "Verdict and availability".

use crate::refusal::Refusal;
use crate::timeline::Timeline;
use crate::units::{Grains, Millis, Span, WideTick};

/// What a window's needed ticks and the kept references say together.
#[derive(Clone, Copy, Debug, PartialEq, Eq)]
pub enum Verdict {
    /// The window needs no tick.
    NothingNeeded,
    /// Every needed tick is covered.
    Complete {
        /// How many ticks are needed.
        needed: u64,
    },
    /// Some needed tick is not covered.
    Lacking {
        /// How many ticks are needed.
        needed: u64,
        /// How many of them are covered.
        covered: u64,
        /// The lowest needed tick that is not covered.
        lowest: WideTick,
    },
}

impl Verdict {
    /// Percent of the needed ticks that are covered, where any is needed.
    pub fn percent(self) -> Option<u64> {
        match self {
            Verdict::NothingNeeded => None,
            Verdict::Complete { needed } => percent(needed, needed),
            Verdict::Lacking {
                needed, covered, ..
            } => percent(covered, needed),
        }
    }
}

/// covered x 100 / needed, rounded down, only where needed is above 0.
pub fn percent(covered: u64, needed: u64) -> Option<u64> {
    let hundredfold = u128::from(covered) * 100;
    let percent = hundredfold.checked_div(u128::from(needed))?;
    Some(u64::try_from(percent).expect("covered ticks are among the needed ones"))
}

impl Timeline {
    /// The verdict at a clock. Refusals 10, 11.
    pub fn verdict_at(&self, clock: u64) -> Result<Verdict, Refusal> {
        let clock = Millis::new(clock).ok_or(Refusal::ClockOverLimit)?;
        if clock < self.greatest_clock {
            return Err(Refusal::ClockBeforeGreatest);
        }
        let clock = clock.grains(self.head.timescale);
        Ok(self.verdict_of(self.head.window_at(clock)))
    }

    /// The whole-period verdict, with the whole period as its window. Refusal 19.
    pub fn verdict_whole(&self) -> Result<Verdict, Refusal> {
        let window = self.head.whole_period().ok_or(Refusal::EndUnknown)?;
        Ok(self.verdict_of(window))
    }

    fn verdict_of(&self, window: Span<Grains>) -> Verdict {
        let needed_ticks = self.head.needed_ticks(window);
        let needed = needed_ticks.count();
        if needed == 0 {
            return Verdict::NothingNeeded;
        }
        match self.lowest_uncovered(needed_ticks) {
            None => Verdict::Complete { needed },
            Some(lowest) => Verdict::Lacking {
                needed,
                covered: self.covered_count(needed_ticks),
                lowest,
            },
        }
    }

    /// How many needed ticks belong to a kept reference. No tick belongs to two of them, so each
    /// covered tick is counted once.
    fn covered_count(&self, needed: Span<WideTick>) -> u64 {
        self.kept
            .iter()
            .map(|reference| reference.ticks().common(needed).count())
            .sum()
    }

    /// The lowest needed tick that belongs to no kept reference.
    ///
    /// All needed ticks below `lowest` are covered at every step. A reference that has been
    /// passed does not hold `lowest`, neither then nor later: `lowest` only rises, and where the
    /// reference starts after it, so do all that follow and it stays.
    fn lowest_uncovered(&self, needed: Span<WideTick>) -> Option<WideTick> {
        let mut lowest = needed.from;
        for reference in &self.kept {
            if reference.ticks().holds(lowest) {
                lowest = reference.end();
            }
        }
        Some(lowest).filter(|tick| needed.holds(*tick))
    }
}
