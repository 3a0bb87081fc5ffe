//! A small seeded generator (splitmix64), so that every run of the tests is the same.

pub struct Random {
    seed: u64,
    state: u64,
}

/// A failed test names its seed.
impl Drop for Random {
    fn drop(&mut self) {
        if std::thread::panicking() {
            eprintln!("the failed test has seed {}", self.seed);
        }
    }
}

impl Random {
    pub fn new(seed: u64) -> Self {
        Self { seed, state: seed }
    }

    pub fn next(&mut self) -> u64 {
        self.state = self.state.wrapping_add(0x9E37_79B9_7F4A_7C15);
        let mut mixed = self.state;
        mixed = (mixed ^ (mixed >> 30)).wrapping_mul(0xBF58_476D_1CE4_E5B9);
        mixed = (mixed ^ (mixed >> 27)).wrapping_mul(0x94D0_49BB_1331_11EB);
        mixed ^ (mixed >> 31)
    }

    /// A number below a bound.
    pub fn below(&mut self, bound: usize) -> usize {
        (self.next() % bound as u64) as usize
    }

    /// A number from a range, both ends included.
    pub fn within(&mut self, low: usize, high: usize) -> usize {
        low + self.below(high - low + 1)
    }

    /// True once in so many times.
    pub fn once_in(&mut self, times: usize) -> bool {
        self.below(times) == 0
    }

    /// The usual number, or sometimes any below a bound.
    pub fn mostly(&mut self, usual: usize, bound: usize) -> usize {
        if self.once_in(5) {
            self.below(bound)
        } else {
            usual
        }
    }

    pub fn pick<T: Copy>(&mut self, items: &[T]) -> T {
        items[self.below(items.len())]
    }

    pub fn bytes(&mut self, length: usize) -> Vec<u8> {
        let mut bytes = Vec::with_capacity(length + 8);
        while bytes.len() < length {
            bytes.extend(self.next().to_le_bytes());
        }
        bytes.truncate(length);
        bytes
    }

    pub fn block(&mut self) -> [u8; 16] {
        let (high, low) = (self.next(), self.next());
        (u128::from(high) << 64 | u128::from(low)).to_be_bytes()
    }

    /// A 32-bit number: often at one of the edges, sometimes any.
    #[rustfmt::skip]
    pub fn edge(&mut self) -> u32 {
        const EDGES: [u32; 14] = [
            0, 0, 1, 2, 3, 4_000, 4_001, 1_048_574, 1_048_575, 1_048_576, 1_048_577, 1 << 31, u32::MAX - 1_048_575, u32::MAX,
        ];
        match self.below(8) {
            0 => self.next() as u32,
            1 => self.below(4_002) as u32,
            2 => self.below(1_048_578) as u32,
            _ => self.pick(&EDGES),
        }
    }

    /// A signed 32-bit number: often at one of the edges, either side of zero, sometimes any.
    pub fn signed_edge(&mut self) -> i32 {
        const EDGES: [i32; 11] = [0, 1, 127, 128, 4_000, 4_001, 1_048_575, 1_048_576, 1_048_577, i32::MAX - 1_048_575, i32::MAX];
        let number = match self.below(8) {
            0 => return self.next() as i32,
            1 => self.below(4_002) as i32,
            2 => self.below(1_048_578) as i32,
            _ => self.pick(&EDGES),
        };
        // Less one, the most negative number is among them.
        match self.below(4) {
            0 => -number - 1,
            1 => -number,
            _ => number,
        }
    }
}
