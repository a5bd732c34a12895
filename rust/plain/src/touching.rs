//! The runs that touch a span of ticks. Paper: "Verdict and availability".

use std::ops::Range;

use crate::refusal::Refusal;
use crate::timeline::Timeline;
use crate::units::{Span, WideTick};

impl Timeline {
    /// The used runs, by their place in the table, that touch the tick span from a to b (b
    /// excluded; any 64-bit numbers). A run that only meets a or b does not touch. Empty, from 0
    /// to 0, if none do. Refusal 14.
    ///
    /// Runs stand in rising order, so those that touch stand together: from the first that does
    /// to the last that does.
    pub fn touching(&self, a: u64, b: u64) -> Result<Range<usize>, Refusal> {
        let span = Span {
            from: WideTick::new(i128::from(a)),
            to: WideTick::new(i128::from(b)),
        };
        if span.is_empty() {
            return Err(Refusal::EmptySpan);
        }
        let runs = self.runs();
        let first = runs.iter().position(|run| run.ticks().overlaps(span));
        let last = runs.iter().rposition(|run| run.ticks().overlaps(span));
        Ok(match (first, last) {
            (Some(first), Some(last)) => first..last + 1,
            _ => 0..0,
        })
    }
}
