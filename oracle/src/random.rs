//! Seeded random words (splitmix64) and floats: the same on every host.

pub struct Random(u64);

impl Random {
    /// Its own stream for each name, so that a new call leaves the cases of the others alone.
    pub fn new(seed: u64, name: &str) -> Random {
        let mut random = Random(seed);
        for byte in name.bytes() {
            random.0 = random.word() ^ u64::from(byte);
        }
        random
    }

    pub fn word(&mut self) -> u64 {
        self.0 = self.0.wrapping_add(0x9e37_79b9_7f4a_7c15);
        let mut z = self.0;
        z = (z ^ (z >> 30)).wrapping_mul(0xbf58_476d_1ce4_e5b9);
        z = (z ^ (z >> 27)).wrapping_mul(0x94d0_49bb_1331_11eb);
        z ^ (z >> 31)
    }

    /// A number below n. The bias of the remainder is of no matter here.
    pub fn below(&mut self, n: u64) -> u64 {
        self.word() % n
    }

    pub fn one_of<T: Copy>(&mut self, list: &[T]) -> T {
        list[self.below(list.len() as u64) as usize]
    }

    /// Any bit pattern: every exponent is as likely as another, NaNs are among them.
    pub fn pattern(&mut self) -> f64 {
        f64::from_bits(self.word())
    }

    /// A subnormal of either sign, each number of leading zeros as likely as another.
    pub fn subnormal(&mut self) -> f64 {
        let zeros = self.below(52);
        let fraction = (self.word() >> 12 | 1 << 51) >> zeros;
        self.signed(f64::from_bits(fraction))
    }

    /// x, or a float up to `steps` floats away from it on either side.
    pub fn near(&mut self, x: f64, steps: u64) -> f64 {
        let away = self.below(steps + 1);
        let step = self.one_of(&[f64::next_up as fn(f64) -> f64, f64::next_down]);
        (0..away).fold(x, |x, _| step(x))
    }

    /// A float of the range, its low end possible and its high end not.
    pub fn between(&mut self, low: f64, high: f64) -> f64 {
        let part = (self.word() >> 11) as f64 * 2f64.powi(-53);
        low + part * (high - low)
    }

    /// x or -x.
    pub fn signed(&mut self, x: f64) -> f64 {
        self.one_of(&[x, -x])
    }
}
