//! Random numbers that are the same for the same seed.

/// A generator of evenly spread 64-bit numbers (splitmix).
#[derive(Clone, Debug)]
pub struct Generator(u64);

impl Generator {
    /// The generator of a seed.
    pub fn new(seed: u64) -> Self {
        Generator(seed)
    }

    /// The generator of the so-manieth case of a seed, so that each case can be made by itself.
    pub fn of_case(seed: u64, case: u64) -> Self {
        let mixed = Generator(seed).number() ^ Generator(case.wrapping_add(0x5eed)).number();
        Generator(mixed)
    }

    /// The next number.
    pub fn number(&mut self) -> u64 {
        self.0 = self.0.wrapping_add(0x9e37_79b9_7f4a_7c15);
        let mut mixed = self.0;
        mixed = (mixed ^ (mixed >> 30)).wrapping_mul(0xbf58_476d_1ce4_e5b9);
        mixed = (mixed ^ (mixed >> 27)).wrapping_mul(0x94d0_49bb_1331_11eb);
        mixed ^ (mixed >> 31)
    }

    /// A number below a bound that is not 0.
    pub fn below(&mut self, bound: u64) -> u64 {
        self.number() % bound
    }

    /// A place in a list of so many, which is not empty.
    pub fn place(&mut self, length: usize) -> usize {
        self.below(length as u64) as usize
    }

    /// A number from the first to the last, both included.
    pub fn between(&mut self, first: u64, last: u64) -> u64 {
        match (last - first).checked_add(1) {
            Some(many) => first + self.below(many),
            None => self.number(),
        }
    }

    /// True once in so many times.
    pub fn one_in(&mut self, many: u64) -> bool {
        self.below(many) == 0
    }

    /// True so many times in a hundred.
    pub fn percent(&mut self, percent: u64) -> bool {
        self.below(100) < percent
    }

    /// One of some values.
    pub fn pick<T: Copy>(&mut self, values: &[T]) -> T {
        values[self.place(values.len())]
    }

    /// A number at most 1 away from another.
    pub fn near(&mut self, number: u64) -> u64 {
        match self.below(3) {
            0 => number.saturating_sub(1),
            1 => number,
            _ => number.saturating_add(1),
        }
    }

    /// A number of any size, small ones as often as large ones.
    pub fn of_any_size(&mut self) -> u64 {
        let bits = self.below(65);
        match bits {
            0 => 0,
            bits => self.number() >> (64 - bits),
        }
    }
}
