//! A thread that locks the mutex that it holds.

use std::sync::Mutex;

fn main() {
    let mutex = Mutex::new(1);
    let first = mutex.lock().unwrap();
    println!("held {}", *first);
    println!("{}", *mutex.lock().unwrap());
}
