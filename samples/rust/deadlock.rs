//! A deadlock: two threads take two accounts in opposite orders, and ask the bank between.

use std::sync::Mutex;
use std::thread;
use std::time::Duration;

fn transfer(from: &Mutex<i64>, to: &Mutex<i64>, amount: i64) {
    let mut from = from.lock().unwrap();
    thread::sleep(Duration::from_millis(1));
    let mut to = to.lock().unwrap();
    *from -= amount;
    *to += amount;
}

fn main() {
    let (one, two) = (Mutex::new(100), Mutex::new(100));
    println!("two transfers");
    thread::scope(|s| {
        s.spawn(|| transfer(&one, &two, 30));
        s.spawn(|| transfer(&two, &one, 50));
    });
    println!("{} {}", one.into_inner().unwrap(), two.into_inner().unwrap());
}
