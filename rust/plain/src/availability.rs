//! Availability of one kept reference. Paper: "Verdict and availability".

use crate::reference::Reference;
use crate::refusal::Refusal;
use crate::timeline::Timeline;
use crate::units::{Grains, Millis};

/// When a reference is available: from the start, up to and not including the end.
#[derive(Clone, Copy, Debug, PartialEq, Eq)]
pub struct Availability {
    /// From here on, counted from availabilityStartTime.
    pub start: Grains,
    /// Up to here; none where it never ends.
    pub end: Option<Grains>,
}

impl Availability {
    /// Available at a point in grains.
    pub fn holds(self, point: Grains) -> bool {
        self.start <= point && self.end.map_or(true, |end| point < end)
    }
}

impl Timeline {
    /// The availability of the reference that bears a number. Refusal 13.
    ///
    /// It starts at period start plus the reference's end less the offset; it ends at that plus
    /// depth plus its own duration, or never where depth is 0.
    pub fn availability(&self, number: u32) -> Result<Availability, Refusal> {
        let reference = self.kept_reference(number).ok_or(Refusal::NumberNotKept)?;
        let start = self.head.place(reference.end());
        let own_duration = Grains::of_ticks(i128::from(reference.duration.get()));
        let end = self
            .head
            .window_depth()
            .map(|depth| start + depth + own_duration);
        Ok(Availability { start, end })
    }

    /// Whether the reference that bears a number is available at a clock in milliseconds.
    /// Refusals 10, 13.
    pub fn available_at(&self, number: u32, clock: u64) -> Result<bool, Refusal> {
        let clock = Millis::new(clock).ok_or(Refusal::ClockOverLimit)?;
        let availability = self.availability(number)?;
        Ok(availability.holds(clock.grains(self.head.timescale)))
    }

    /// The kept reference that bears a number; the first bears first number plus dropped.
    fn kept_reference(&self, number: u32) -> Option<Reference> {
        let index = number.checked_sub(self.first_kept_number().get())?;
        self.kept.get(usize::try_from(index).ok()?).copied()
    }
}
