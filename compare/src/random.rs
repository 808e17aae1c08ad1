//! A source of random numbers, and the numbers that calls are made of.

/// Random numbers from a seed (xorshift with a multiplication at the end).
pub struct Random(u64);

impl Random {
    pub fn new(seed: u64) -> Random {
        Random(seed.wrapping_mul(0x9E37_79B9_7F4A_7C15) | 1)
    }

    /// The numbers of one case: neighbouring seeds, entries or indices give numbers that have nothing in common.
    pub fn of(seed: u64, entry: u64, index: u64) -> Random {
        let mix = |value: u64| {
            let value = (value ^ (value >> 30)).wrapping_mul(0xBF58_476D_1CE4_E5B9);
            let value = (value ^ (value >> 27)).wrapping_mul(0x94D0_49BB_1331_11EB);
            value ^ (value >> 31)
        };
        let start = mix(seed.wrapping_add(0x9E37_79B9_7F4A_7C15));
        let start = mix(start ^ entry.wrapping_add(1).wrapping_mul(0x9E37_79B9_7F4A_7C15));
        Random(mix(start ^ index.wrapping_add(1).wrapping_mul(0xD1B5_4A32_D192_ED03)) | 1)
    }

    pub fn word(&mut self) -> u64 {
        self.0 ^= self.0 >> 12;
        self.0 ^= self.0 << 25;
        self.0 ^= self.0 >> 27;
        self.0.wrapping_mul(0x2545_F491_4F6C_DD1D)
    }

    /// A number below the bound.
    pub fn below(&mut self, bound: usize) -> usize {
        ((self.word() >> 32) as usize) % bound.max(1)
    }

    /// True once in so many times.
    pub fn once_in(&mut self, times: usize) -> bool {
        self.below(times) == 0
    }

    pub fn pick<T: Clone>(&mut self, list: &[T]) -> T {
        list[self.below(list.len())].clone()
    }

    pub fn shuffle<T>(&mut self, list: &mut [T]) {
        for i in (1..list.len()).rev() {
            list.swap(i, self.below(i + 1));
        }
    }

    /// A count, now and then one at or beside a limit, or a huge one.
    pub fn count(&mut self, good: usize) -> usize {
        if self.once_in(40) {
            self.pick(&[0, 1, 6, 7, 8, 32, 33, 240, 241, 255, 256, 65_536, usize::MAX, usize::MAX / 240 + 1, usize::MAX / 2 + 1])
        } else {
            good
        }
    }

    /// A length, now and then one too short or longer.
    pub fn length(&mut self, good: usize) -> usize {
        match self.below(60) {
            0 => self.below(good),
            1 => good - 1,
            2 | 3 => good + self.below(300),
            4 => self.pick(&[0, 1]),
            _ => good,
        }
    }

    /// A family's size, now and then one less or more, or at a limit.
    pub fn size(&mut self, good: usize) -> usize {
        match self.below(40) {
            0 => self.pick(&[0, 1, 32, 33, 34, 240, usize::MAX, usize::MAX / 240 + 1]),
            1 => good.saturating_sub(1),
            2 => good + 1,
            _ => good,
        }
    }
}
