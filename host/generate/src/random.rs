/// A seeded generator of the xorshift64* kind.
#[derive(Clone, Debug)]
pub struct Random(u64);

impl Random {
    /// Starts a generator; neighbouring seeds give unlike sequences.
    pub fn new(seed: u64) -> Self {
        let mut mixed = seed.wrapping_add(0x9E37_79B9_7F4A_7C15);
        mixed = (mixed ^ (mixed >> 30)).wrapping_mul(0xBF58_476D_1CE4_E5B9);
        mixed = (mixed ^ (mixed >> 27)).wrapping_mul(0x94D0_49BB_1331_11EB);
        Self((mixed ^ (mixed >> 31)).max(1))
    }

    /// Gives the next 64 bits.
    pub fn bits(&mut self) -> u64 {
        self.0 ^= self.0 >> 12;
        self.0 ^= self.0 << 25;
        self.0 ^= self.0 >> 27;
        self.0.wrapping_mul(0x2545_F491_4F6C_DD1D)
    }

    /// Gives the next 32-bit number.
    pub fn word(&mut self) -> u32 {
        (self.bits() >> 32) as u32
    }

    /// Gives a number below a limit, which must not be 0.
    pub fn below(&mut self, limit: usize) -> usize {
        ((u128::from(self.bits()) * limit as u128) >> 64) as usize
    }

    /// Gives a number from `low` to `high`, both included.
    pub fn between(&mut self, low: usize, high: usize) -> usize {
        low + self.below(high - low + 1)
    }

    /// Tells whether an event that happens once in `times` happens now.
    pub fn one_in(&mut self, times: usize) -> bool {
        self.below(times) == 0
    }

    /// Gives one of several values.
    pub fn pick<T: Copy>(&mut self, values: &[T]) -> T {
        values[self.below(values.len())]
    }

    /// Gives one of several values, or nothing if there is none.
    pub fn choose<T: Copy>(&mut self, values: &[T]) -> Option<T> {
        (!values.is_empty()).then(|| self.pick(values))
    }

    /// Brings values into a random order.
    pub fn shuffle<T>(&mut self, values: &mut [T]) {
        for last in (1..values.len()).rev() {
            values.swap(last, self.below(last + 1));
        }
    }

    /// Fills bytes with noise.
    pub fn fill(&mut self, bytes: &mut [u8]) {
        for chunk in bytes.chunks_mut(8) {
            let noise = self.bits().to_be_bytes();
            chunk.copy_from_slice(&noise[..chunk.len()]);
        }
    }

    /// Gives bytes of noise.
    pub fn bytes(&mut self, length: usize) -> Vec<u8> {
        let mut bytes = vec![0; length];
        self.fill(&mut bytes);
        bytes
    }

    /// Gives a byte other than zero.
    pub fn nonzero(&mut self) -> u8 {
        self.between(1, 255) as u8
    }

    /// Gives a name of some length without zero bytes, at times of few letters or of any bytes.
    pub fn name(&mut self, length: usize) -> Vec<u8> {
        let style = self.below(4);
        let letter = |random: &mut Self| match style {
            0 => random.pick(b"AB"),
            1 => random.nonzero(),
            _ => random.pick(b"ABCDEFGHIJKLMNOPQRSTUVWXYZabcdefghijklmnopqrstuvwxyz0123456789_."),
        };
        (0..length).map(|_| letter(self)).collect()
    }
}
