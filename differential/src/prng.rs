//! All that is random in the harness comes from a seed through splitmix64.

#[derive(Clone)]
pub struct Prng(u64);

impl Prng {
    /// A stream of its own for each seed and each use.
    pub fn of(seed: u64, stream: &str) -> Prng {
        let mut p = Prng(seed);
        for b in stream.bytes() {
            p.0 = p.next() ^ b as u64;
        }
        p
    }

    pub fn next(&mut self) -> u64 {
        self.0 = self.0.wrapping_add(0x9e3779b97f4a7c15);
        let mut z = self.0;
        z = (z ^ (z >> 30)).wrapping_mul(0xbf58476d1ce4e5b9);
        z = (z ^ (z >> 27)).wrapping_mul(0x94d049bb133111eb);
        z ^ (z >> 31)
    }

    /// From 0 to count - 1.
    pub fn below(&mut self, count: u64) -> u64 {
        ((self.next() as u128 * count as u128) >> 64) as u64
    }

    pub fn index(&mut self, count: usize) -> usize {
        self.below(count as u64) as usize
    }

    /// True `of` times in `out_of`.
    pub fn chance(&mut self, of: u64, out_of: u64) -> bool {
        self.below(out_of) < of
    }

    pub fn pick<'a, T>(&mut self, from: &'a [T]) -> &'a T {
        &from[self.index(from.len())]
    }

    /// Any number, with the ends and short ones far more often than by chance.
    #[allow(dead_code)]
    pub fn number(&mut self) -> u64 {
        match self.below(8) {
            0 => self.below(11),
            1 => u64::MAX - self.below(11),
            2 => 10u64.pow(self.below(20) as u32).wrapping_sub(self.below(2)),
            3 => (1u64 << self.below(64)).wrapping_sub(self.below(2)),
            4 => self.below(1000),
            _ => self.next() >> self.below(64),
        }
    }
}
