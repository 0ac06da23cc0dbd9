//! Random numbers that are the same on every machine (splitmix64).

pub struct Random(u64);

impl Random {
    /// A sequence of its own for each list of numbers.
    pub fn of(numbers: &[u64]) -> Random {
        let mut random = Random(0);
        for number in numbers {
            random.0 = random.number() ^ number;
        }
        random
    }

    pub fn number(&mut self) -> u64 {
        self.0 = self.0.wrapping_add(0x9E37_79B9_7F4A_7C15);
        let mut mixed = self.0;
        mixed = (mixed ^ mixed >> 30).wrapping_mul(0xBF58_476D_1CE4_E5B9);
        mixed = (mixed ^ mixed >> 27).wrapping_mul(0x94D0_49BB_1331_11EB);
        mixed ^ mixed >> 31
    }

    /// True in `part` of `whole` cases, both below 2^31.
    pub fn chance(&mut self, part: u64, whole: u64) -> bool {
        (self.number() >> 32) * whole < part << 32
    }

    /// A number below `end`, which is below 2^32.
    pub fn below(&mut self, end: u64) -> u64 {
        ((self.number() >> 32) * end) >> 32
    }

    /// A part of 1, from 0 on and below 1.
    pub fn part(&mut self) -> f64 {
        (self.number() >> 11) as f64 / (1u64 << 53) as f64
    }

    /// A number of the normal distribution around 0 with variance 1 (Box and Muller's).
    pub fn normal(&mut self) -> f64 {
        let (distance, turn) = (1.0 - self.part(), self.part());
        (-2.0 * distance.ln()).sqrt() * (std::f64::consts::TAU * turn).cos()
    }
}
