//! Numbers that look random and come again with the same seed.

/// A source of numbers that look random: a counter with a large odd step,
/// each value of it stirred by multiplications and shifts.
#[derive(Clone, Debug)]
pub struct Dice {
    counter: u64,
}

impl Dice {
    /// Dice whose numbers depend on nothing but this seed.
    pub fn new(seed: u64) -> Dice {
        Dice { counter: seed }
    }

    /// Any number of 64 bits.
    pub fn any(&mut self) -> u64 {
        self.counter = self.counter.wrapping_add(0x9e37_79b9_7f4a_7c15);
        let mut stirred = self.counter;
        stirred = (stirred ^ stirred >> 30).wrapping_mul(0xbf58_476d_1ce4_e5b9);
        stirred = (stirred ^ stirred >> 27).wrapping_mul(0x94d0_49bb_1331_11eb);
        stirred ^ stirred >> 31
    }

    /// A number below a limit that is not 0.
    pub fn below(&mut self, limit: u64) -> u64 {
        self.any() % limit
    }

    /// A number from the first to the last.
    pub fn between(&mut self, first: u64, last: u64) -> u64 {
        first + self.below(last - first + 1)
    }

    /// Yes, once in so many times.
    pub fn once_in(&mut self, times: u64) -> bool {
        self.below(times) == 0
    }

    /// An index of something that has so many.
    pub fn index(&mut self, count: usize) -> usize {
        self.below(count as u64) as usize
    }

    /// One of several.
    pub fn one_of<T: Copy>(&mut self, several: &[T]) -> T {
        several[self.index(several.len())]
    }

    /// Puts several into another order.
    pub fn shuffle<T>(&mut self, several: &mut [T]) {
        for last in (1..several.len()).rev() {
            several.swap(last, self.index(last + 1));
        }
    }
}
