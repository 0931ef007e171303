//! dashmap and flume: a map with many locks, and channels of several producers and consumers.

use dashmap::DashMap;
use std::thread;

fn main() {
    let map = DashMap::new();
    thread::scope(|s| {
        for i in 0..4 {
            let map = &map;
            s.spawn(move || (0..50).for_each(|j| *map.entry((i + j) % 10).or_insert(0) += 1));
        }
    });
    let mut counts: Vec<(i32, i32)> = map.into_iter().collect();
    counts.sort();
    println!("{counts:?}");

    let (numbers, taken) = flume::bounded(2);
    let sum: u32 = thread::scope(|s| {
        for i in 0..3 {
            let numbers = numbers.clone();
            s.spawn(move || (0..10).for_each(|j| numbers.send(i * 10 + j).unwrap()));
        }
        drop(numbers);
        let takers: Vec<_> = (0..2).map(|_| s.spawn(|| taken.iter().sum::<u32>())).collect();
        takers.into_iter().map(|it| it.join().unwrap()).sum()
    });
    println!("{sum}");
}
