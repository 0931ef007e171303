//! What the tests of std and alloc ask of the crate rand: a generator's words, its bytes as numbers, a coin, and an order that is drawn.

pub trait RngCore {
    fn next_u32(&mut self) -> u32;

    fn next_u64(&mut self) -> u64 {
        u64::from(self.next_u32()) | u64::from(self.next_u32()) << 32
    }
}

pub trait SeedableRng: Sized {
    type Seed;

    fn from_seed(seed: Self::Seed) -> Self;
}

pub trait Rng: RngCore {
    /// True with this probability.
    fn random_bool(&mut self, probability: f64) -> bool {
        f64::from(self.next_u32()) < probability * 4_294_967_296.0
    }
}

impl<T: RngCore> Rng for T {}

pub mod seq {
    use crate::RngCore;

    pub trait SliceRandom {
        /// Puts the values into an order that is drawn.
        fn shuffle<R: RngCore>(&mut self, rng: &mut R);
    }

    impl<T> SliceRandom for [T] {
        fn shuffle<R: RngCore>(&mut self, rng: &mut R) {
            for at in (1..self.len()).rev() {
                self.swap(at, rng.next_u32() as usize % (at + 1));
            }
        }
    }
}
