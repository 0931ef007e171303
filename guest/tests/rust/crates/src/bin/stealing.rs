//! rayon: a pool that steals work, with a thread for each processor, sorting, maps that are joined, and a panic in a job.

use rayon::prelude::*;
fn main() {
    rayon::ThreadPoolBuilder::new().build_global().unwrap();
    let s: u64 = (0..20_000u64).into_par_iter().map(|x| x * x % 7).sum();
    println!("sum {s} threads {}", rayon::current_num_threads());
    let mut v: Vec<u32> = (0..5000u32).map(|x| x.wrapping_mul(2654435761) % 10007).collect();
    v.par_sort_unstable();
    println!("{} {} {}", v[0], v[2500], v[4999]);
    let (a, b) = rayon::join(|| (1..=100).sum::<u32>(), || (1..=10u64).product::<u64>());
    println!("{a} {b}");
    let words: Vec<String> = (0..200).map(|i| format!("w{}", i % 17)).collect();
    let mut c: Vec<(String, usize)> = words
        .par_iter()
        .fold(std::collections::HashMap::new, |mut m, w| {
            *m.entry(w.clone()).or_insert(0) += 1;
            m
        })
        .reduce(std::collections::HashMap::new, |mut a, b| {
            for (k, v) in b {
                *a.entry(k).or_insert(0) += v;
            }
            a
        })
        .into_iter()
        .collect();
    c.sort();
    println!("{:?}", &c[..3]);
    let r = std::panic::catch_unwind(|| {
        (0..100).into_par_iter().for_each(|i| {
            if i == 50 {
                panic!("in rayon")
            }
        })
    });
    println!("{}", r.is_err());
}
