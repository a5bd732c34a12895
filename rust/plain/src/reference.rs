//! References and runs. Paper: "Record and table".

use crate::units::{RefDuration, Span, Tick, WideTick};

/// One reference: its start and its duration in ticks.
#[derive(Clone, Copy, Debug, PartialEq, Eq)]
pub struct Reference {
    /// Where it starts.
    pub start: Tick,
    /// How long it lasts.
    pub duration: RefDuration,
}

impl Reference {
    /// Where it ends.
    pub fn end(self) -> WideTick {
        self.start.wide().later(i128::from(self.duration.get()))
    }

    /// Its half-open span of ticks.
    pub fn ticks(self) -> Span<WideTick> {
        Span {
            from: self.start.wide(),
            to: self.end(),
        }
    }
}

/// A run: so many references of one duration, each starting where the one before it ends.
/// An append is one run too, until it is stored.
#[derive(Clone, Copy, Debug, PartialEq, Eq)]
pub struct Run {
    /// Where the first reference starts.
    pub start: Tick,
    /// How long each reference lasts.
    pub duration: RefDuration,
    /// How many references there are.
    pub count: u64,
}

impl Run {
    /// Where the reference of this index, counted from 0, starts.
    pub fn start_of(self, index: u64) -> WideTick {
        let ticks_before = i128::from(self.duration.get()) * i128::from(index);
        self.start.wide().later(ticks_before)
    }

    /// Where the last reference ends. It may lie over the limit until that has been judged.
    pub fn end(self) -> WideTick {
        self.start_of(self.count)
    }

    /// The half-open span of ticks from the first start to the last end.
    pub fn ticks(self) -> Span<WideTick> {
        Span {
            from: self.start.wide(),
            to: self.end(),
        }
    }

    /// The reference of this index, counted from 0. To be asked only of a run whose end is known
    /// to be within the limit of ticks.
    pub fn reference(self, index: u64) -> Reference {
        Reference {
            start: self
                .start_of(index)
                .limited()
                .expect("a run whose end is within the limit"),
            duration: self.duration,
        }
    }
}

/// The runs that references joined end to start make: neighbours of one duration share a run, so
/// neighbouring runs differ in duration.
pub fn runs_of(references: &[Reference]) -> Vec<Run> {
    let mut runs: Vec<Run> = Vec::new();
    for reference in references {
        match runs.last_mut() {
            Some(run) if run.duration == reference.duration => run.count += 1,
            _ => runs.push(Run {
                start: reference.start,
                duration: reference.duration,
                count: 1,
            }),
        }
    }
    runs
}
