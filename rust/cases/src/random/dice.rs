//! A small seeded source of numbers (splitmix64).

/// The state of the source.
pub struct Dice {
    state: u64,
}

impl Dice {
    /// A source that always gives the same numbers for the same seed.
    pub fn new(seed: u64) -> Dice {
        Dice { state: seed }
    }

    /// The next 64 bits.
    pub fn bits(&mut self) -> u64 {
        self.state = self.state.wrapping_add(0x9e37_79b9_7f4a_7c15);
        let mut z = self.state;
        z = (z ^ (z >> 30)).wrapping_mul(0xbf58_476d_1ce4_e5b9);
        z = (z ^ (z >> 27)).wrapping_mul(0x94d0_49bb_1331_11eb);
        z ^ (z >> 31)
    }

    /// A number from 0 to `count` - 1; `count` is above 0.
    pub fn below(&mut self, count: usize) -> usize {
        (self.bits() % count as u64) as usize
    }

    /// A number from `low` to `high`, both included.
    pub fn within(&mut self, low: usize, high: usize) -> usize {
        low + self.below(high - low + 1)
    }

    /// True in that many of a hundred throws.
    pub fn chance(&mut self, percent: usize) -> bool {
        self.below(100) < percent
    }

    /// One of the elements of a list that is not empty.
    pub fn pick<'a, N>(&mut self, list: &'a [N]) -> &'a N {
        &list[self.below(list.len())]
    }

    /// The initial content of a lent array of signed numbers.
    pub fn signed(&mut self, length: usize) -> Vec<i32> {
        (0..length).map(|_| self.noise() as i32).collect()
    }

    /// The initial content of a lent array of unsigned numbers.
    pub fn unsigned(&mut self, length: usize) -> Vec<u32> {
        (0..length).map(|_| self.noise()).collect()
    }

    /// The initial content of a lent array of bytes.
    pub fn bytes(&mut self, length: usize) -> Vec<u8> {
        (0..length).map(|_| self.bits() as u8).collect()
    }

    /// Mostly a digit, now and then any 32 bits.
    fn noise(&mut self) -> u32 {
        match self.below(20) {
            0 => self.bits() as u32,
            _ => self.below(10) as u32,
        }
    }
}
