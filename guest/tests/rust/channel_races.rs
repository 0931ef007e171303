//! A message orders what its sender did before it, and nothing that the sender does after it.

use std::sync::mpsc;
use std::thread;

static mut BEFORE: u32 = 0;
static mut AFTER: u32 = 0;

fn main() {
    let (words, taken) = mpsc::channel();
    let other = thread::spawn(move || {
        taken.recv().unwrap();
        unsafe { BEFORE += 1 };
        unsafe { AFTER = 2 };
    });
    unsafe { BEFORE += 1 };
    words.send(()).unwrap();
    unsafe { AFTER = 1 };
    other.join().unwrap();
    println!("{}", unsafe { (&raw const BEFORE).read() });
}
