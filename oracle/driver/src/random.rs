//! A small generator of random numbers (splitmix64): the same seed gives the same drawings everywhere.

#[derive(Clone)]
pub struct Random(u64);

impl Random {
    /// A stream of its own for each list of seeds.
    pub fn new(seeds: &[u64]) -> Self {
        let mut random = Self(0);
        for &seed in seeds {
            random.0 ^= seed;
            random.0 = random.next();
        }
        random
    }

    /// A stream of its own, which leaves this one as it is.
    pub fn apart(&self) -> Self {
        Self::new(&[self.0])
    }

    pub fn next(&mut self) -> u64 {
        self.0 = self.0.wrapping_add(0x9e37_79b9_7f4a_7c15);
        let mut z = self.0;
        z = (z ^ (z >> 30)).wrapping_mul(0xbf58_476d_1ce4_e5b9);
        z = (z ^ (z >> 27)).wrapping_mul(0x94d0_49bb_1331_11eb);
        z ^ (z >> 31)
    }

    pub fn below(&mut self, bound: usize) -> usize {
        (self.next() % bound as u64) as usize
    }

    /// From `least` to `most`, both included.
    pub fn within(&mut self, least: i32, most: i32) -> i32 {
        let width = (most as i64 - least as i64 + 1) as u64;
        (least as i64 + (self.next() % width) as i64) as i32
    }

    pub fn chance(&mut self, percent: usize) -> bool {
        self.below(100) < percent
    }

    pub fn pick<T: Copy>(&mut self, list: &[T]) -> T {
        list[self.below(list.len())]
    }

    pub fn shuffle<T>(&mut self, list: &mut [T]) {
        for last in (1..list.len()).rev() {
            list.swap(last, self.below(last + 1));
        }
    }
}
