//! Seeded random numbers (splitmix64), so that every run can be had again.
//! Small and plain; nothing here has to be hard to guess.

pub struct Random(u64);

impl Random {
    pub fn new(seed: u64) -> Random {
        Random(seed)
    }

    pub fn next(&mut self) -> u64 {
        self.0 = self.0.wrapping_add(0x9E37_79B9_7F4A_7C15);
        let mixed = (self.0 ^ self.0 >> 30).wrapping_mul(0xBF58_476D_1CE4_E5B9);
        let mixed = (mixed ^ mixed >> 27).wrapping_mul(0x94D0_49BB_1331_11EB);
        mixed ^ mixed >> 31
    }

    /// A number from 0 up to and with the largest.
    pub fn up_to(&mut self, largest: usize) -> usize {
        ((u128::from(self.next()) * (largest as u128 + 1)) >> 64) as usize
    }

    pub fn between(&mut self, least: usize, largest: usize) -> usize {
        least + self.up_to(largest - least)
    }

    /// True once in so many times.
    pub fn once_in(&mut self, times: usize) -> bool {
        self.up_to(times - 1) == 0
    }

    pub fn byte(&mut self) -> u8 {
        self.next() as u8
    }

    pub fn bytes(&mut self, length: usize) -> Vec<u8> {
        let mut bytes = Vec::with_capacity(length + 7);
        while bytes.len() < length {
            bytes.extend(self.next().to_le_bytes());
        }
        bytes.truncate(length);
        bytes
    }

    pub fn pick<T: Copy>(&mut self, from: &[T]) -> T {
        from[self.up_to(from.len() - 1)]
    }

    /// A 32-bit number, often one at an edge.
    pub fn number(&mut self) -> u32 {
        match self.up_to(3) {
            0 => self.pick(&[0, 1, 2, u32::MAX, u32::MAX - 1, 1 << 31, (1 << 31) - 1, (1 << 31) + 1]),
            1 => self.up_to(9) as u32,
            _ => self.next() as u32,
        }
    }

    /// A second of an entry or a clock, often at an edge of 32 or of 64 bits, or no farther from it than a TTL is long.
    pub fn second(&mut self) -> u64 {
        match self.up_to(5) {
            0 => self.number().into(),
            1 => self.pick(&[(1 << 32) - 1, 1 << 32, 1 << 63, u64::MAX - 2, u64::MAX - 1, u64::MAX]),
            2 => (1 << 32) - 65_536 + self.up_to(131_072) as u64,
            3 => u64::MAX - self.up_to(65_536) as u64,
            _ => self.next(),
        }
    }
}
