//! A sum that is right: rayon's pool divides the numbers, and a thread that has no work takes some from another one.

use rayon::prelude::*;

/// How many steps a number takes to 1, if each even one is halved and each odd one is tripled, plus 1. They vary, so threads steal.
fn steps(mut number: u64) -> u64 {
    let mut count = 0;
    while number > 1 {
        number = if number % 2 == 0 { number / 2 } else { 3 * number + 1 };
        count += 1;
    }
    count
}

fn main() {
    let pool = rayon::ThreadPoolBuilder::new().num_threads(4).build().unwrap();
    let sum: u64 = pool.install(|| (1..=2000u64).into_par_iter().map(steps).sum());
    println!("{sum} steps in {} threads", pool.current_num_threads());
}
