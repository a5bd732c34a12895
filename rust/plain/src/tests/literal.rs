//! The paper's definitions by plain search and enumeration, over raw numbers. Written apart from
//! the library, for small cases.

use crate::window::HeadFields;

/// A reference as its start and end in ticks.
pub type Ticks = (i128, i128);

/// A stretch as its beginning and end in grains.
pub type Stretch = (i128, i128);

#[derive(Clone, Copy, Debug)]
pub struct Literal {
    pub timescale: i128,
    pub offset: i128,
    pub start: i128,
    pub duration: i128,
    pub depth: i128,
    pub first_number: i128,
    pub update: i128,
}

pub fn overlap(one: Stretch, other: Stretch) -> bool {
    one.0.max(other.0) < one.1.min(other.1)
}

impl Literal {
    pub fn of(head: HeadFields) -> Self {
        Literal {
            timescale: i128::from(head.timescale),
            offset: i128::from(head.offset),
            start: i128::from(head.start),
            duration: i128::from(head.duration),
            depth: i128::from(head.depth),
            first_number: i128::from(head.first_number),
            update: i128::from(head.update),
        }
    }

    /// Where a tick stands, in grains from availabilityStartTime.
    pub fn place(&self, tick: i128) -> i128 {
        self.start * self.timescale + (tick - self.offset) * 1000
    }

    pub fn period_end(&self) -> Option<i128> {
        match self.duration {
            0 => None,
            duration => Some((self.start + duration) * self.timescale),
        }
    }

    fn before_end(&self, point: i128) -> i128 {
        match self.period_end() {
            Some(end) if end < point => end,
            _ => point,
        }
    }

    pub fn window(&self, clock: i128) -> Stretch {
        let mut from = self.start;
        if self.depth > 0 && clock - self.depth > from {
            from = clock - self.depth;
        }
        (
            from * self.timescale,
            self.before_end((clock + self.update) * self.timescale),
        )
    }

    pub fn whole_period(&self) -> Option<Stretch> {
        self.period_end()
            .map(|end| (self.start * self.timescale, end))
    }

    pub fn needed(&self, reference: Ticks, clock: i128) -> bool {
        let from = self.place(reference.0).max(self.start * self.timescale);
        let to = self.before_end(self.place(reference.1));
        overlap((from, to), self.window(clock))
    }

    /// Needed neither at the clock nor at any later whole millisecond, by trying them. After the
    /// last one tried nothing changes: with a depth the window has passed the reference, without
    /// one it holds all of the reference that it ever will.
    pub fn spent(&self, reference: Ticks, clock: i128) -> bool {
        let end_millis = self.place(reference.1).div_euclid(self.timescale) + 1;
        let last = clock
            .max(end_millis + self.depth + 1)
            .max(self.start + self.depth + 1);
        assert!(last - clock < 1_000_000, "a case small enough to search");
        !(clock..=last).any(|later| self.needed(reference, later))
    }

    /// The needed ticks of a window, tick by tick.
    pub fn needed_ticks(&self, window: Stretch) -> Vec<i128> {
        let first = self.offset - 3;
        let last = self.offset + (window.1 - self.start * self.timescale).max(0) / 1000 + 3;
        (first..=last)
            .filter(|tick| overlap((self.place(*tick), self.place(tick + 1)), window))
            .collect()
    }

    /// Kind, needed, covered, lowest, percent, as the face words them.
    pub fn verdict(&self, kept: &[Ticks], window: Stretch) -> [u64; 5] {
        let covered = |tick: i128| kept.iter().any(|span| span.0 <= tick && tick < span.1);
        let needed = self.needed_ticks(window);
        let needed_count = needed.len() as u64;
        let covered_count = needed.iter().filter(|tick| covered(**tick)).count() as u64;
        match needed.iter().find(|tick| !covered(**tick)) {
            _ if needed.is_empty() => [0; 5],
            None => [1, needed_count, needed_count, 0, 100],
            Some(lowest) => [
                2,
                needed_count,
                covered_count,
                *lowest as u64,
                covered_count * 100 / needed_count,
            ],
        }
    }
}
