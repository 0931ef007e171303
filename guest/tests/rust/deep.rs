//! Deep recursion of main and of a thread, whose stack has half a MiB, and a stack of the program's own size.

use std::hint::black_box;
use std::thread;

fn sum(depth: u64) -> u64 {
    let numbers = black_box([depth; 16]);
    if depth == 0 {
        return 0;
    }
    numbers[black_box(7)] + sum(depth - 1)
}

fn main() {
    println!("main {}", sum(500));
    println!("thread {}", thread::spawn(|| sum(2_000)).join().unwrap());
    let large = thread::Builder::new().stack_size(4 << 20);
    println!("large {}", large.spawn(|| sum(20_000)).unwrap().join().unwrap());
    let small = thread::Builder::new().stack_size(16 << 10);
    println!("small {}", small.spawn(|| sum(20)).unwrap().join().unwrap());
}
