//! Seeded random numbers (splitmix64). Every case has a generator of its own,
//! made from the seed, the kind of case and its index: one case can be made
//! again without those before it.

pub struct Rng(u64);

fn mix(mut z: u64) -> u64 {
    z = (z ^ (z >> 30)).wrapping_mul(0xBF58_476D_1CE4_E5B9);
    z = (z ^ (z >> 27)).wrapping_mul(0x94D0_49BB_1331_11EB);
    z ^ (z >> 31)
}

impl Rng {
    pub fn new(seed: u64, stream: u64, index: u64) -> Self {
        let stream = mix(stream.wrapping_add(0x9E37_79B9_7F4A_7C15));
        let index = mix(index.wrapping_add(0x3C6E_F372_FE94_F82B));
        Rng(mix(mix(seed ^ stream).wrapping_add(index)))
    }

    pub fn next(&mut self) -> u64 {
        self.0 = self.0.wrapping_add(0x9E37_79B9_7F4A_7C15);
        mix(self.0)
    }

    /// A number below `n`, which is above zero.
    pub fn below(&mut self, n: u64) -> u64 {
        ((u128::from(self.next()) * u128::from(n)) >> 64) as u64
    }

    /// A number from `low` to `high`, both included.
    pub fn between(&mut self, low: u64, high: u64) -> u64 {
        low + self.below(high - low + 1)
    }

    /// A place in a list of `n` things.
    pub fn place(&mut self, n: usize) -> usize {
        self.below(n as u64) as usize
    }

    pub fn one_in(&mut self, n: u64) -> bool {
        self.below(n) == 0
    }

    pub fn pick<T: Copy>(&mut self, among: &[T]) -> T {
        among[self.place(among.len())]
    }

    /// A number up to `most`, of any number of digits alike.
    pub fn wide(&mut self, most: u64) -> u64 {
        let bits = self.below(64);
        (self.next() >> bits) % (most + 1)
    }
}
