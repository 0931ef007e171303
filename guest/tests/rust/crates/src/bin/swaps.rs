//! arc-swap: readers beside a writer, updates by several threads, and a value that is there or not.

use arc_swap::{ArcSwap, ArcSwapOption, Cache};
use std::sync::Arc;
use std::thread;

/// Two numbers that always have the same sum.
struct Pair(u64, u64);

/// Each reader sees whole pairs alone.
fn read_beside_a_writer() {
    let shared = ArcSwap::from_pointee(Pair(0, 1000));
    thread::scope(|s| {
        s.spawn(|| (1..=200).for_each(|it| shared.store(Arc::new(Pair(it, 1000 - it)))));
        for _ in 0..3 {
            s.spawn(|| {
                for _ in 0..200 {
                    let pair = shared.load();
                    assert_eq!(pair.0 + pair.1, 1000);
                }
            });
        }
    });
    let last = shared.load_full();
    println!("{} {}, {} owners", last.0, last.1, Arc::strong_count(&last));
}

fn update_by_several() {
    let count = ArcSwap::from_pointee(0_u32);
    thread::scope(|s| {
        for _ in 0..4 {
            s.spawn(|| (0..50).for_each(|_| _ = count.rcu(|it| **it + 1)));
        }
    });
    println!("count {}", count.load());
}

fn main() {
    read_beside_a_writer();
    update_by_several();
    let maybe = ArcSwapOption::<String>::empty();
    println!("{:?}", maybe.load().as_deref());
    let before = maybe.swap(Some(Arc::new("there".into())));
    println!("{before:?} {:?}", maybe.load().as_deref());
    let shared = ArcSwap::from_pointee(1);
    let mut cache = Cache::new(&shared);
    print!("{} ", cache.load());
    shared.store(Arc::new(2));
    println!("{}", cache.load());
}
