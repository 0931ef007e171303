//! Many threads that unwind at the same time, each through frames with values to drop.

use std::panic::{catch_unwind, panic_any, set_hook};
use std::sync::atomic::{AtomicU32, Ordering};
use std::thread;

static DROPPED: AtomicU32 = AtomicU32::new(0);

struct Counted;

impl Drop for Counted {
    fn drop(&mut self) {
        DROPPED.fetch_add(1, Ordering::Relaxed);
    }
}

fn falls(depth: u32, value: u32) -> u32 {
    let _counted = Counted;
    if depth == 0 {
        panic_any(value);
    }
    falls(depth - 1, value) + 1
}

fn caught(value: u32) -> u32 {
    *catch_unwind(|| falls(5, value)).unwrap_err().downcast::<u32>().unwrap()
}

fn main() {
    set_hook(Box::new(|_| ()));
    let threads: Vec<_> = (0..16).map(|i| thread::spawn(move || (0..5).map(|j| caught(i * 5 + j)).sum::<u32>())).collect();
    println!("{}", threads.into_iter().map(|it| it.join().unwrap()).sum::<u32>());
    println!("{}", DROPPED.load(Ordering::Relaxed));
    let joined = thread::spawn(|| falls(3, 9)).join();
    println!("{:?}", joined.unwrap_err().downcast_ref::<u32>());
}
