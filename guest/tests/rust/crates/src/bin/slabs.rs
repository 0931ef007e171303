//! sharded-slab and thread_local: places that one thread fills and another frees, and a value of each thread.

use sharded_slab::{Pool, Slab};
use std::cell::Cell;
use std::sync::mpsc;
use std::thread;
use thread_local::ThreadLocal;

/// Threads fill a slab, and another one takes out what they say.
fn fill_and_take() -> (u32, u32) {
    let slab = Slab::new();
    let (places, taken) = mpsc::channel();
    thread::scope(|s| {
        for part in 0..4 {
            let (slab, places) = (&slab, places.clone());
            s.spawn(move || {
                for number in 0..25_u32 {
                    places.send(slab.insert(part * 25 + number).unwrap()).unwrap();
                }
            });
        }
        drop(places);
        let slab = &slab;
        s.spawn(move || taken.iter().fold((0, 0), |(count, sum), it| (count + 1, sum + slab.take(it).unwrap()))).join().unwrap()
    })
}

/// Texts that are used again keep their room.
fn reuse() {
    let pool = Pool::<String>::new();
    let key = pool.create_with(|it| it.push_str("first")).unwrap();
    println!("{}", pool.get(key).unwrap().as_str());
    println!("{} {}", pool.clear(key), pool.get(key).is_none());
    let again = pool.create().unwrap();
    println!("{:?} {}", again.as_str(), again.capacity() >= 5);
}

fn main() {
    let (count, sum) = fill_and_take();
    println!("{count} {sum}");
    reuse();
    let counts = ThreadLocal::new();
    thread::scope(|s| {
        for part in 1..=4 {
            let counts = &counts;
            s.spawn(move || (0..part * 10).for_each(|_| counts.get_or(|| Cell::new(0)).set(counts.get().unwrap().get() + 1)));
        }
    });
    println!("{}", counts.into_iter().map(Cell::into_inner).sum::<u32>());
}
