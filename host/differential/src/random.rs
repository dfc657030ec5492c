//! A small generator of pseudo-random numbers, the same on every machine.

/// SplitMix64.
pub struct Random(u64);

impl Random {
    /// The numbers of one case: they depend on the seed, the part of the run and the case alone.
    pub fn of_case(seed: u64, part: u64, case: u64) -> Self {
        let mut start = Random(seed ^ part.wrapping_mul(0xD6E8_FEB8_6659_FD93));
        let mixed = start.next() ^ case.wrapping_mul(0xA076_1D64_78BD_642F);
        Random(mixed)
    }

    /// Other numbers, which depend on those so far. Taking some of them changes none to come here.
    pub fn beside(&self) -> Self {
        let mut start = Random(self.0 ^ 0xE703_7ED1_A0B4_28DB);
        Random(start.next())
    }

    /// The next number.
    pub fn next(&mut self) -> u64 {
        self.0 = self.0.wrapping_add(0x9E37_79B9_7F4A_7C15);
        let mut z = self.0;
        z = (z ^ (z >> 30)).wrapping_mul(0xBF58_476D_1CE4_E5B9);
        z = (z ^ (z >> 27)).wrapping_mul(0x94D0_49BB_1331_11EB);
        z ^ (z >> 31)
    }

    /// A number from `least` to `most`, both included.
    pub fn range(&mut self, least: u64, most: u64) -> u64 {
        let span = u128::from(most - least) + 1;
        least + ((u128::from(self.next()) * span) >> 64) as u64
    }

    /// Whether something happens that happens so many times in a hundred.
    pub fn percent(&mut self, hundredths: u64) -> bool {
        self.range(1, 100) <= hundredths
    }

    /// One of some values.
    pub fn pick<T: Copy>(&mut self, values: &[T]) -> T {
        values[self.range(0, values.len() as u64 - 1) as usize]
    }

    /// Some bytes.
    pub fn bytes(&mut self, length: usize) -> Vec<u8> {
        let mut bytes = Vec::with_capacity(length + 8);
        while bytes.len() < length {
            bytes.extend(self.next().to_le_bytes());
        }
        bytes.truncate(length);
        bytes
    }
}
