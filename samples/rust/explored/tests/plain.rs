//! A test program without libtest: two threads add to a sum.

use std::sync::Mutex;
use std::thread;

fn main() {
    let sum = Mutex::new(0);
    thread::scope(|s| {
        s.spawn(|| *sum.lock().unwrap() += 1);
        *sum.lock().unwrap() += 2;
    });
    assert_eq!(sum.into_inner().unwrap(), 3);
}
