//! Two threads that take two mutexes in opposite orders.

use std::sync::{Barrier, Mutex};
use std::thread;

fn main() {
    let (one, two, both) = (Mutex::new(1), Mutex::new(2), Barrier::new(2));
    println!("before");
    thread::scope(|s| {
        s.spawn(|| {
            let first = one.lock().unwrap();
            both.wait();
            println!("{}", *first + *two.lock().unwrap());
        });
        let first = two.lock().unwrap();
        both.wait();
        println!("{}", *first + *one.lock().unwrap());
    });
}
