//! A plain vector of references: what a program without runs, records and proofs would have.
//!
//! It judges what an append and a trim are refused for, but needs no test of agreement, since
//! nobody else can reach its memory, and it has no table that could be full.

use crate::limits;
use crate::opening::Opening;

#[derive(Clone, Copy)]
struct Reference {
    start: u64,
    duration: u32,
}

/// A timeline whose references stand one by one.
pub struct Vector {
    head: Opening,
    references: Vec<Reference>,
    accepted: u64,
    dropped: u64,
    next_tick: u64,
    clock: u64,
}

impl Vector {
    /// Opens one.
    pub fn open(head: Opening) -> Vector {
        Vector {
            head,
            references: Vec::new(),
            accepted: 0,
            dropped: 0,
            next_tick: head.first_tick,
            clock: 0,
        }
    }

    /// Accepted, dropped, next tick, greatest clock.
    pub fn words(&self) -> [u64; 4] {
        [self.accepted, self.dropped, self.next_tick, self.clock]
    }

    /// Appends references; the refusal number, 0 where accepted.
    pub fn append(&mut self, start: u64, duration: u32, count: u32) -> u32 {
        let refusal = self.refusal(start, duration, count);
        if refusal != 0 {
            return refusal;
        }
        for _ in 0..count {
            let reference = Reference {
                start: self.next_tick,
                duration,
            };
            if self.spent(reference) {
                self.dropped += 1;
            } else {
                self.references.push(reference);
            }
            self.next_tick += u64::from(duration);
        }
        self.accepted += u64::from(count);
        0
    }

    /// The number that an append is refused with, 0 where it is not.
    fn refusal(&self, start: u64, duration: u32, count: u32) -> u32 {
        if duration == 0 || count == 0 {
            return 3;
        }
        if start > self.next_tick {
            return 4;
        }
        if start < self.next_tick {
            return 5;
        }
        let ticks = u64::from(duration) * u64::from(count);
        if ticks > limits::TICK - start {
            return 6;
        }
        let accepted = self.accepted + u64::from(count);
        let first_number = u64::from(self.head.first_number);
        if accepted > limits::ACCEPTED || first_number + accepted > limits::NUMBER {
            return 7;
        }
        let last_place = self.place(start + ticks - u64::from(duration));
        if self.period_end().map_or(false, |end| last_place >= end) {
            return 8;
        }
        0
    }

    /// Trims; the refusal number, 0 where accepted.
    pub fn trim(&mut self, clock: u64) -> u32 {
        if clock > limits::MILLIS {
            return 10;
        }
        if clock > self.clock {
            self.clock = clock;
            let references = self.references.iter();
            let gone = references.take_while(|found| self.spent(**found)).count();
            self.references.drain(..gone);
            self.dropped += gone as u64;
        }
        0
    }

    /// Grains from the period start to a tick. Within the limits 64 bits hold them.
    fn place(&self, tick: u64) -> i64 {
        (tick as i64 - self.head.offset as i64) * 1000
    }

    /// Grains from the period start to its end, where it is known.
    fn period_end(&self) -> Option<i64> {
        match self.head.duration {
            0 => None,
            duration => Some(duration as i64 * i64::from(self.head.timescale)),
        }
    }

    /// Whether the earlier of a reference's end and the period end lies at or before the window.
    fn spent(&self, reference: Reference) -> bool {
        let end = self.place(reference.start + u64::from(reference.duration));
        let end = self.period_end().map_or(end, |period| end.min(period));
        let edge = match self.head.depth {
            0 => 0,
            depth => {
                let millis = self.clock as i64 - depth as i64 - self.head.start as i64;
                (millis * i64::from(self.head.timescale)).max(0)
            }
        };
        end <= edge
    }
}
