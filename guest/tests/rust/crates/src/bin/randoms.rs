//! rand: generators that the machine's random numbers seed, in several threads, and one with a seed of its own.

use rand::rngs::StdRng;
use rand::seq::SliceRandom;
use rand::{thread_rng, Rng, SeedableRng};
use std::collections::BTreeSet;
use std::thread;

/// Each thread draws numbers of its own generator. Returns how many of all differ.
fn draw_in_threads() -> usize {
    let draw = || (0..100).map(|_| thread_rng().gen()).collect::<Vec<u64>>();
    let threads: Vec<_> = (0..4).map(|_| thread::spawn(draw)).collect();
    let drawn: BTreeSet<_> = threads.into_iter().flat_map(|it| it.join().unwrap()).collect();
    drawn.len()
}

fn is_shuffled() -> bool {
    let mut numbers: Vec<u32> = (0..100).collect();
    numbers.shuffle(&mut thread_rng());
    let is_mixed = numbers.windows(2).any(|it| it[0] > it[1]);
    numbers.sort();
    is_mixed && numbers.into_iter().eq(0..100)
}

fn main() {
    println!("{} numbers differ", draw_in_threads());
    println!("shuffled {}", is_shuffled());
    let mut seeded = StdRng::from_entropy();
    println!("within {}", (0..1000).all(|_| (3..9).contains(&seeded.gen_range(3..9))));
    let mut own = StdRng::seed_from_u64(7);
    println!("{} {} {:.6} {}", own.gen::<u32>(), own.gen_range(0..1000), own.gen::<f64>(), own.gen_bool(0.25));
}
