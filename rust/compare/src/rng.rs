//! Random numbers with a fixed seed (splitmix64).

#[derive(Clone)]
pub struct Rng(u64);

impl Rng {
    pub fn new(seed: u64) -> Self {
        Self(seed)
    }

    /// A generator of its own for a part of a run.
    pub fn of_part(seed: u64, kind: u64, part: u64) -> Self {
        let mut rng = Self(seed ^ kind.wrapping_mul(0xA24B_AED4_963E_E407));
        rng.0 ^= rng
            .number()
            .wrapping_add(part.wrapping_mul(0x9FB2_1C65_1E98_DF25));
        rng.number();
        rng
    }

    pub fn number(&mut self) -> u64 {
        self.0 = self.0.wrapping_add(0x9E37_79B9_7F4A_7C15);
        let mut z = self.0;
        z = (z ^ (z >> 30)).wrapping_mul(0xBF58_476D_1CE4_E5B9);
        z = (z ^ (z >> 27)).wrapping_mul(0x94D0_49BB_1331_11EB);
        z ^ (z >> 31)
    }

    /// A number below n.
    pub fn below(&mut self, n: u64) -> u64 {
        ((u128::from(self.number()) * u128::from(n)) >> 64) as u64
    }

    /// A number from low to high, both included.
    pub fn range(&mut self, low: i64, high: i64) -> i64 {
        low + self.below((high - low + 1) as u64) as i64
    }

    /// True in n of 100 cases.
    pub fn percent(&mut self, n: u64) -> bool {
        self.below(100) < n
    }

    pub fn flag(&mut self) -> bool {
        self.number() >> 63 != 0
    }

    pub fn byte(&mut self) -> u8 {
        self.number() as u8
    }

    pub fn pick<T: Copy>(&mut self, list: &[T]) -> T {
        list[self.below(list.len() as u64) as usize]
    }

    /// A number of a random width, so that small ones are as likely as large ones; often beside a power of two.
    pub fn wide(&mut self, bits: u64) -> u64 {
        let width = self.below(bits + 1);
        let power = 1u64 << width;
        match self.below(4) {
            0 => power - 1,
            1 => power,
            2 => (power + 1) & ((1 << bits) - 1),
            _ => self.below(power),
        }
        .min((1 << bits) - 1)
    }
}
