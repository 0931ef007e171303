//! A lost update: two threads add to one number through `unsafe`. Between two calls each works on a copy of its own, so additions
//! of both at the same time count once, and always the same ones.

use std::thread;

const ADDITIONS: u32 = 100;

static mut COUNTER: u32 = 0;

#[inline(never)]
fn add() {
    for _ in 0..ADDITIONS {
        unsafe {
            COUNTER += 1;
        }
        thread::yield_now();
    }
}

fn main() {
    let threads: Vec<_> = (0..2).map(|_| thread::spawn(add)).collect();
    for thread in threads {
        thread.join().unwrap();
    }
    let counter = unsafe { COUNTER };
    println!("counter {counter} of {}", 2 * ADDITIONS);
    std::process::exit((counter != 2 * ADDITIONS).into());
}
