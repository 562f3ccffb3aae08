//! Repeatable random numbers with emphasis on edges.

/// Numbers at and beside every limit and word base of the registry.
const EDGES: [u16; 38] = [
    0, 1, 2, 3, 4, 14, 15, 16, 17, 18, 62, 63, 64, 65, 66, 78, 79, 80, 81, 142, 143, 144, 145, 254, 255, 256, 257, 258,
    270, 271, 272, 273, 32767, 32768, 65279, 65520, 65534, 65535,
];

#[derive(Clone)]
pub struct Random(u64);

/// The seed of the case with this index in the run with this seed.
pub fn case_seed(run_seed: u64, index: u64) -> u64 {
    Random(run_seed ^ index.wrapping_mul(0xD6E8_FEB8_6659_FD93)).bits() >> 16
}

impl Random {
    pub fn new(seed: u64) -> Random {
        Random(seed ^ 0x5851_F42D_4C95_7F2D)
    }

    /// The next 64 random bits (splitmix64).
    pub fn bits(&mut self) -> u64 {
        self.0 = self.0.wrapping_add(0x9E37_79B9_7F4A_7C15);
        let mut z = self.0;
        z = (z ^ (z >> 30)).wrapping_mul(0xBF58_476D_1CE4_E5B9);
        z = (z ^ (z >> 27)).wrapping_mul(0x94D0_49BB_1331_11EB);
        z ^ (z >> 31)
    }

    /// A number below `limit`, which is at least 1.
    pub fn below(&mut self, limit: usize) -> usize {
        (((self.bits() >> 32) * limit as u64) >> 32) as usize
    }

    /// True once in `times` on average.
    pub fn once_in(&mut self, times: usize) -> bool {
        self.below(times) == 0
    }

    pub fn pick<T: Copy>(&mut self, choices: &[T]) -> T {
        choices[self.below(choices.len())]
    }

    /// One of the choices, if there are any.
    pub fn pick_any<T: Copy>(&mut self, choices: &[T]) -> Option<T> {
        (!choices.is_empty()).then(|| self.pick(choices))
    }

    pub fn shuffle<T>(&mut self, items: &mut [T]) {
        for last in (1..items.len()).rev() {
            items.swap(last, self.below(last + 1));
        }
    }

    /// 0 to `limit` - 1 in random order.
    pub fn order(&mut self, limit: usize) -> Vec<usize> {
        let mut order: Vec<usize> = (0..limit).collect();
        self.shuffle(&mut order);
        order
    }

    /// A number that names something of a table of `limit` words, or misses it.
    pub fn number(&mut self, limit: usize) -> u16 {
        match self.below(8) {
            0..=3 => self.below(limit + 1) as u16,
            4 => (limit + self.below(3)).saturating_sub(1) as u16,
            5 | 6 => self.pick(&EDGES),
            _ => self.bits() as u16,
        }
    }

    /// Any word, with emphasis on the edges.
    pub fn word(&mut self) -> u16 {
        if self.once_in(3) {
            self.bits() as u16
        } else {
            self.pick(&EDGES)
        }
    }

    pub fn words(&mut self, length: usize) -> Vec<u16> {
        (0..length).map(|_| self.bits() as u16).collect()
    }

    /// T of usual tables: often small, often at the limit.
    pub fn task_count(&mut self) -> usize {
        match self.below(8) {
            0 => 1,
            1..=3 => 2 + self.below(6),
            4 | 5 => 64,
            6 => 63,
            _ => 1 + self.below(64),
        }
    }

    /// P of usual tables: often small, often at the limit.
    pub fn promise_count(&mut self) -> usize {
        match self.below(8) {
            0 => self.below(2),
            1..=3 => 2 + self.below(10),
            4 => 256,
            5 => 64 + self.below(16),
            6 => 255,
            _ => self.below(257),
        }
    }
}
