//! Chance from a seed: a case's numbers depend on the seed, the call and the case's index, and on nothing else.

pub struct Chance(u64);

fn mixed(mut z: u64) -> u64 {
    z = (z ^ (z >> 30)).wrapping_mul(0xBF58476D1CE4E5B9);
    z = (z ^ (z >> 27)).wrapping_mul(0x94D049BB133111EB);
    z ^ (z >> 31)
}

impl Chance {
    pub fn new(seed: u64, call: u64, index: u64) -> Self {
        Self(mixed(mixed(mixed(seed) ^ call) ^ index))
    }

    pub fn bits(&mut self) -> u64 {
        self.0 = self.0.wrapping_add(0x9E3779B97F4A7C15);
        mixed(self.0)
    }

    /// From 0 up to but not `n`.
    pub fn below(&mut self, n: u64) -> u64 {
        self.bits() % n
    }

    pub fn between(&mut self, low: i64, high: i64) -> i64 {
        low + self.below(high.abs_diff(low) + 1) as i64
    }

    /// Once in `n` times.
    pub fn once_in(&mut self, n: u64) -> bool {
        self.below(n) == 0
    }

    pub fn one_of<T: Copy>(&mut self, items: &[T]) -> T {
        items[self.below(items.len() as u64) as usize]
    }

    pub fn sign(&mut self) -> i64 {
        self.one_of(&[1, -1])
    }

    /// From 0 to 1.
    pub fn part(&mut self) -> f64 {
        (self.bits() >> 11) as f64 / (1_u64 << 53) as f64
    }

    /// A whole number of any length up to the limit, so that small ones are as likely as large ones.
    pub fn any_length(&mut self, limit: i64) -> i64 {
        let shift = self.below(u64::from(64 - limit.leading_zeros()));
        self.between(0, limit >> shift)
    }
}
