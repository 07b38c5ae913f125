//! A small random generator of our own, so that a seed gives the same cases
//! everywhere.

pub struct Rng(u64);

impl Rng {
    pub fn new(seed: u64) -> Rng {
        // Spread small seeds over the word; xorshift must not stand at 0.
        let spread = seed.wrapping_add(1).wrapping_mul(0x9E37_79B9_7F4A_7C15);
        let mut rng = Rng(if spread == 0 { 1 } else { spread });
        for _ in 0..8 {
            rng.next();
        }
        rng
    }

    /// xorshift64*; only the upper half is given, the lower is weaker.
    pub fn next(&mut self) -> u32 {
        self.0 ^= self.0 >> 12;
        self.0 ^= self.0 << 25;
        self.0 ^= self.0 >> 27;
        (self.0.wrapping_mul(0x2545_F491_4F6C_DD1D) >> 32) as u32
    }

    /// 0 up to but without `bound`.
    pub fn below(&mut self, bound: u32) -> u32 {
        ((self.next() as u64 * bound as u64) >> 32) as u32
    }

    pub fn between(&mut self, low: u32, high: u32) -> u32 {
        low + self.below(high - low + 1)
    }

    pub fn percent(&mut self, chance: u32) -> bool {
        self.below(100) < chance
    }

    pub fn coin(&mut self) -> bool {
        self.percent(50)
    }

    pub fn pick<T: Copy>(&mut self, from: &[T]) -> T {
        from[self.below(from.len() as u32) as usize]
    }

    /// A number at, just under or just over an edge.
    pub fn around(&mut self, edge: u32) -> u32 {
        self.pick(&[edge.saturating_sub(1), edge, edge, edge + 1])
    }
}
