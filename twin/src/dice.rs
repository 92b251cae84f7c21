// A small generator of pseudo-random numbers, the same in every run, from
// which the tests, make-books and make-lines draw.

pub struct Dice(pub u64);

impl Dice {
    pub fn roll(&mut self) -> u64 {
        // xorshift64*: its upper half is good enough to spread test cases.
        self.0 ^= self.0 >> 12;
        self.0 ^= self.0 << 25;
        self.0 ^= self.0 >> 27;
        self.0.wrapping_mul(0x2545_F491_4F6C_DD1D) >> 32
    }

    /// A number from low to high; the ends themselves come up often.
    pub fn between(&mut self, low: i64, high: i64) -> i64 {
        match self.roll() % 8 {
            0 => low,
            1 => high,
            _ => low + (self.roll() % (high - low + 1) as u64) as i64,
        }
    }
}
