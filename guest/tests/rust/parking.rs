//! Parked threads and their tokens, and a loop on an atomic flag.

use std::sync::{
    atomic::{AtomicBool, Ordering},
    Arc,
};
use std::thread;
use std::time::{Duration, Instant};

fn main() {
    let f = Arc::new(AtomicBool::new(false));
    let f2 = f.clone();
    let h = thread::spawn(move || {
        while !f2.load(Ordering::Acquire) {
            thread::park();
        }
        "released"
    });
    thread::sleep(Duration::from_millis(10));
    f.store(true, Ordering::Release);
    h.thread().unpark();
    println!("{}", h.join().unwrap());
    let t = Instant::now();
    thread::park_timeout(Duration::from_millis(30));
    println!("{}", t.elapsed() >= Duration::from_millis(29));
    thread::current().unpark();
    thread::park();
    println!("token");
    let spin = Arc::new(AtomicBool::new(false));
    let s2 = spin.clone();
    let h = thread::spawn(move || {
        let mut n = 0u64;
        while !s2.load(Ordering::Relaxed) {
            std::hint::spin_loop();
            n += 1;
        }
        n > 0
    });
    thread::sleep(Duration::from_millis(1));
    spin.store(true, Ordering::Relaxed);
    println!("{}", h.join().unwrap());
}
