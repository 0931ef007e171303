//! Fences: data that relaxed operations on a flag publish between them, and who of two comes first.

use std::hint::spin_loop;
use std::sync::atomic::Ordering::{AcqRel, Acquire, Relaxed, Release, SeqCst};
use std::sync::atomic::{compiler_fence, fence, AtomicBool, AtomicUsize, Ordering};
use std::thread;

struct Cell {
    flag: AtomicBool,
    data: std::cell::UnsafeCell<usize>,
}

unsafe impl Sync for Cell {}

impl Cell {
    const fn new() -> Cell {
        Cell { flag: AtomicBool::new(false), data: std::cell::UnsafeCell::new(0) }
    }

    /// Once alone.
    fn publish(&self, data: usize, order: Ordering) {
        unsafe { *self.data.get() = data };
        fence(order);
        self.flag.store(true, Relaxed);
    }

    fn take(&self, order: Ordering) -> usize {
        while !self.flag.load(Relaxed) {
            spin_loop();
        }
        fence(order);
        unsafe { *self.data.get() }
    }
}

static CELLS: [Cell; 3] = [const { Cell::new() }; 3];
static WANTS: [AtomicBool; 2] = [const { AtomicBool::new(false) }; 2];
static FIRST: AtomicUsize = AtomicUsize::new(0);

/// At most one of the two sees that the other doesn't want.
fn come(own: usize) {
    WANTS[own].store(true, Relaxed);
    fence(SeqCst);
    if !WANTS[1 - own].load(Relaxed) {
        FIRST.fetch_add(1, Relaxed);
    }
}

fn main() {
    let orders = [(Release, Acquire), (AcqRel, AcqRel), (SeqCst, SeqCst)];
    let taker = thread::spawn(move || CELLS.iter().zip(orders).map(|(cell, (_, order))| cell.take(order)).sum::<usize>());
    for (number, (cell, (order, _))) in CELLS.iter().zip(orders).enumerate() {
        cell.publish(number + 5, order);
        compiler_fence(SeqCst);
    }
    println!("sum {}", taker.join().unwrap());
    thread::scope(|scope| {
        scope.spawn(|| come(0));
        scope.spawn(|| come(1));
    });
    println!("both first: {}", FIRST.load(Relaxed) == 2);
}
