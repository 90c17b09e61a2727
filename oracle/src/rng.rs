//! Random numbers that are the same everywhere for the same seed.

/// Marsaglia's xorshift, its output multiplied.
#[derive(Clone, Debug)]
pub struct Rng(u64);

impl Rng {
    pub fn new(seed: u64) -> Rng {
        let mixed = (seed ^ (seed >> 31)).wrapping_mul(0x9e37_79b9_7f4a_7c15);
        Rng(mixed ^ (mixed >> 29) | 1)
    }

    /// What is drawn for an input depends on the input alone, so that it is drawn again while the input is shrunk.
    pub fn of(bytes: &[u8]) -> Rng {
        let fnv = |h: u64, b: &u8| (h ^ u64::from(*b)).wrapping_mul(0x0100_0000_01b3);
        Rng::new(
            bytes
                .iter()
                .take(64)
                .fold(0xcbf2_9ce4_8422_2325 ^ bytes.len() as u64, fnv),
        )
    }

    pub fn bits(&mut self) -> u64 {
        self.0 ^= self.0 >> 12;
        self.0 ^= self.0 << 25;
        self.0 ^= self.0 >> 27;
        self.0.wrapping_mul(0x2545_f491_4f6c_dd1d)
    }

    pub fn byte(&mut self) -> u8 {
        (self.bits() >> 56) as u8
    }

    /// A number under `n`, which is over 0 and in 32 bits.
    pub fn below(&mut self, n: usize) -> usize {
        (((self.bits() >> 32) * n as u64) >> 32) as usize
    }

    /// Yes once in `n` times.
    pub fn once_in(&mut self, n: usize) -> bool {
        self.below(n) == 0
    }

    pub fn pick<T: Copy>(&mut self, from: &[T]) -> T {
        from[self.below(from.len())]
    }
}
