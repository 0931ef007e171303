//! A recursion without end, which reaches the page below a thread's stack.

use std::hint::black_box;

fn endless(depth: u64) -> u64 {
    black_box(depth) + endless(depth + 1) + black_box(1)
}

fn main() {
    println!("before");
    println!("{}", std::thread::spawn(|| endless(0)).join().unwrap());
}
