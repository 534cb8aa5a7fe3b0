//! Random numbers that follow from a seed alone (SplitMix64).

pub struct Random(u64);

impl Random {
    /// Each kind's streams have numbers of their own: a kind added later moves no other's.
    pub fn new(seed: u64, kind: u64, stream: u64) -> Self {
        let mut random = Random(seed);
        random.0 = random.next() ^ kind;
        random.0 = random.next() ^ stream;
        random
    }

    pub fn next(&mut self) -> u64 {
        self.0 = self.0.wrapping_add(0x9e37_79b9_7f4a_7c15);
        let mut z = self.0;
        z = (z ^ z >> 30).wrapping_mul(0xbf58_476d_1ce4_e5b9);
        z = (z ^ z >> 27).wrapping_mul(0x94d0_49bb_1331_11eb);
        z ^ z >> 31
    }

    /// A number below `end`.
    pub fn below(&mut self, end: u64) -> u64 {
        self.next() % end
    }

    pub fn pick(&mut self, from: &[u64]) -> u64 {
        from[self.below(from.len() as u64) as usize]
    }

    /// True once in so many times.
    pub fn one_in(&mut self, count: u64) -> bool {
        self.below(count) == 0
    }

    /// A double from `low` up to `high`.
    pub fn between(&mut self, low: f64, high: f64) -> f64 {
        let unit = (self.next() >> 11) as f64 / (1u64 << 53) as f64;
        low + (high - low) * unit
    }

    /// A number of 32 bits, short ones as likely as long ones.
    pub fn word(&mut self) -> u64 {
        (self.next() >> 32) >> self.below(33)
    }
}
