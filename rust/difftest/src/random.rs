//! Pseudo-random numbers from a seed (SplitMix64), and the draws that the cases are made of.

use reference::{PLAIN, RIBBED};

pub struct Random {
    state: u64,
}

impl Random {
    pub fn new(seed: u64) -> Random {
        Random { state: seed }
    }

    pub fn next(&mut self) -> u64 {
        self.state = self.state.wrapping_add(0x9e37_79b9_7f4a_7c15);
        let mut z = self.state;
        z = (z ^ (z >> 30)).wrapping_mul(0xbf58_476d_1ce4_e5b9);
        z = (z ^ (z >> 27)).wrapping_mul(0x94d0_49bb_1331_11eb);
        z ^ (z >> 31)
    }

    /// A number below `count`, which is not 0.
    pub fn below(&mut self, count: usize) -> usize {
        (self.next() % count as u64) as usize
    }

    /// True once in `count` draws.
    pub fn once_in(&mut self, count: usize) -> bool {
        self.below(count) == 0
    }

    pub fn pick<T: Copy>(&mut self, from: &[T]) -> T {
        from[self.below(from.len())]
    }

    pub fn bytes(&mut self, count: usize) -> Vec<u8> {
        (0..count).map(|_| self.next() as u8).collect()
    }

    /// One of the eight sides, a small one more often.
    pub fn good_side(&mut self) -> u32 {
        match self.below(4000) {
            0..=4 => self.pick(&[64, 128, 256]),
            5..=29 => 32,
            30..=199 => 16,
            200..=999 => 8,
            1000..=2199 => 4,
            _ => 2,
        }
    }

    /// One of the eight sides, or now and then another number.
    pub fn side(&mut self) -> u32 {
        if self.once_in(12) {
            let odd = self.next() as u32;
            return self.pick(&[0, 1, 3, 5, 6, 7, 9, 12, 24, 31, 33, 255, 257, 512, 1 << 31, u32::MAX, odd]);
        }
        self.good_side()
    }

    /// One of the two knits.
    pub fn good_knit(&mut self) -> u32 {
        self.pick(&[PLAIN, RIBBED])
    }

    /// A number that is no knit.
    pub fn no_knit(&mut self) -> u32 {
        let odd = self.next() as u32;
        self.pick(&[2, 2, 3, 4, 255, 256, 257, 1 << 16, 1 << 31, u32::MAX, u32::MAX, odd.max(2)])
    }

    /// One of the two knits, or now and then another number.
    pub fn knit(&mut self) -> u32 {
        if self.once_in(12) {
            return self.no_knit();
        }
        self.good_knit()
    }

    /// A length around a needed one, or now and then any small one.
    pub fn length(&mut self, needed: usize) -> usize {
        match self.below(16) {
            0 => self.below(needed + 3),
            1 => needed.saturating_sub(1),
            2 => needed.saturating_sub(2),
            3 => needed + 1,
            4 => needed + 2 + self.below(5),
            _ => needed,
        }
    }

    /// A budget: small, or the largest.
    pub fn budget(&mut self) -> u32 {
        match self.below(8) {
            0 => 0,
            1 => u32::MAX,
            2 => self.below(1000) as u32,
            _ => 1 + self.below(5) as u32,
        }
    }

    /// A small serial, 0 among them, or now and then one of a single bit, up to 2^31.
    pub fn serial(&mut self) -> u32 {
        if self.once_in(16) {
            return 1 << self.below(32);
        }
        self.below(4) as u32
    }

    /// A residual or sum as a sheet may hold it, or any 64-bit number.
    pub fn entry(&mut self) -> i64 {
        let word = self.next() as i64;
        let near = word % 70_000;
        let far = word % (1 << 40);
        self.pick(&[
            0,
            near,
            near,
            near / 1000,
            65_280,
            65_281,
            -65_280,
            -65_281,
            32_640,
            32_639,
            far,
            word,
            i64::MAX,
            i64::MIN,
        ])
    }

    /// A number from -limit to limit, now and then one of these two.
    pub fn within(&mut self, limit: i64) -> i64 {
        let any = self.next() as i64 % (limit + 1);
        match self.below(16) {
            0 => limit,
            1 => -limit,
            _ => any,
        }
    }

    /// A number below -2^40 or above 2^40, mostly by one.
    pub fn beyond(&mut self) -> i64 {
        const MOST: i64 = 1 << 40;
        self.pick(&[MOST + 1, -MOST - 1, MOST + 1, -MOST - 1, 2 * MOST, i64::MAX, i64::MIN])
    }
}
