//! Numbers drawn from a seed (splitmix64).

/// What a stream of numbers is drawn for, so that streams don't depend on each other.
#[derive(Clone, Copy)]
pub enum Use {
    Hall = 1,
    Pairs,
    LaterPairs,
    Changes,
    Plan,
    File,
    Store,
    Damage,
    Bytes,
    Input,
    Written,
}

/// A stream of numbers.
pub struct Draw {
    state: u64,
}

impl Draw {
    /// The stream of one case for one use.
    pub fn new(seed: u64, case: u64, of: Use) -> Self {
        let mut draw = Draw { state: seed };
        for part in [case, of as u64] {
            draw.state = draw.bits() ^ part;
        }
        draw
    }

    /// Any 64 bits.
    pub fn bits(&mut self) -> u64 {
        self.state = self.state.wrapping_add(0x9e37_79b9_7f4a_7c15);
        let mut mixed = self.state;
        mixed = (mixed ^ (mixed >> 30)).wrapping_mul(0xbf58_476d_1ce4_e5b9);
        mixed = (mixed ^ (mixed >> 27)).wrapping_mul(0x94d0_49bb_1331_11eb);
        mixed ^ (mixed >> 31)
    }

    /// A number from 0 to `count` - 1.
    pub fn below(&mut self, count: usize) -> usize {
        (self.bits() % count as u64) as usize
    }

    /// A number from `least` to `most`.
    pub fn from_to(&mut self, least: usize, most: usize) -> usize {
        least + self.below(most - least + 1)
    }

    /// True so many times in a hundred.
    pub fn percent(&mut self, percent: usize) -> bool {
        self.below(100) < percent
    }

    pub fn pick<T: Copy>(&mut self, list: &[T]) -> T {
        list[self.below(list.len())]
    }

    /// An entry of a list of (weight, entry), as often as its weight says.
    pub fn weighted<T: Copy>(&mut self, list: &[(usize, T)]) -> T {
        let mut left = self.below(list.iter().map(|(weight, _)| weight).sum());
        for (weight, entry) in list {
            if left < *weight {
                return *entry;
            }
            left -= weight;
        }
        unreachable!("a number below the sum of weights falls on an entry")
    }
}
