//! What std's own tests ask of the crate rand_xorshift: the generator of Marsaglia with four words.

use rand::{RngCore, SeedableRng};

pub struct XorShiftRng([u32; 4]);

impl SeedableRng for XorShiftRng {
    type Seed = [u8; 16];

    fn from_seed(seed: [u8; 16]) -> XorShiftRng {
        let word = |at: usize| u32::from_le_bytes(seed[4 * at..4 * at + 4].try_into().unwrap());
        XorShiftRng([word(0) | 1, word(1), word(2), word(3)])
    }
}

impl RngCore for XorShiftRng {
    fn next_u32(&mut self) -> u32 {
        let [x, y, z, w] = self.0;
        let mixed = x ^ x << 11;
        self.0 = [y, z, w, w ^ w >> 19 ^ mixed ^ mixed >> 8];
        self.0[3]
    }
}
