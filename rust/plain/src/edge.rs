//! How far what came reaches: the covered edge. Paper: "Verdict and availability".

use crate::timeline::Timeline;
use crate::units::Millis;

impl Timeline {
    /// The covered edge: the greatest clock within its limit at which the window's upper edge is at
    /// or before the next tick's place; none where it lies after that at clock 0 already.
    ///
    /// The upper edge never falls as the clock rises, so halving finds where it passes that place: it
    /// has not passed at any clock below `least`, and has at every clock from `most` on.
    pub fn covered_edge(&self) -> Option<Millis> {
        let (mut least, mut most) = (0, Millis::MAX + 1);
        while least < most {
            let middle = least + (most - least) / 2;
            if self.passes_next_tick(middle) {
                most = middle;
            } else {
                least = middle + 1;
            }
        }
        least.checked_sub(1).and_then(Millis::new)
    }

    /// True where the window's upper edge at a clock lies after the next tick's place.
    fn passes_next_tick(&self, clock: u64) -> bool {
        let clock = self.head.timescale.grains_of_millis(i128::from(clock));
        self.head.window_at(clock).to > self.head.place(self.next_tick.wide())
    }
}
