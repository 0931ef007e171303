//! Tests that pass without a number. Three of them have a bug, which some numbers show; the others pass by all numbers.

use std::sync::atomic::{AtomicBool, AtomicU32, Ordering::SeqCst};
use std::sync::{Condvar, Mutex};

/// A flag that threads wait for.
#[derive(Default)]
pub struct Flag {
    is_up: AtomicBool,
    lock: Mutex<()>,
    changed: Condvar,
}

impl Flag {
    /// Raises the flag, and wakes who waits.
    pub fn raise(&self) {
        let _held = self.lock.lock().unwrap();
        self.is_up.store(true, SeqCst);
        self.changed.notify_all();
    }

    /// Waits for the flag, with the lock held from the look at it to the wait.
    pub fn wait(&self) {
        let mut held = self.lock.lock().unwrap();
        while !self.is_up.load(SeqCst) {
            held = self.changed.wait(held).unwrap();
        }
    }

    /// Waits for the flag, and misses the one wakeup if it comes between the look and the wait.
    pub fn wait_carelessly(&self) {
        while !self.is_up.load(SeqCst) {
            let held = self.lock.lock().unwrap();
            drop(self.changed.wait(held).unwrap());
        }
    }
}

/// Moves an amount, with the first account held while the second one is taken.
pub fn transfer(from: &Mutex<i64>, to: &Mutex<i64>, amount: i64) {
    let mut from = from.lock().unwrap();
    let mut to = to.lock().unwrap();
    *from -= amount;
    *to += amount;
}

/// Counts up to a limit, unless another thread counts between the look and the step.
pub fn count_up(counter: &AtomicU32, limit: u32) {
    if counter.load(SeqCst) < limit {
        counter.fetch_add(1, SeqCst);
    }
}

#[cfg(test)]
mod tests {
    use super::*;
    use std::thread;

    #[test]
    fn flag() {
        let flag = Flag::default();
        thread::scope(|s| {
            s.spawn(|| flag.wait());
            flag.raise();
        });
    }

    #[test]
    fn lost_wakeup() {
        let flag = Flag::default();
        thread::scope(|s| {
            s.spawn(|| flag.wait_carelessly());
            flag.raise();
        });
    }

    #[test]
    fn two_locks() {
        let (one, two) = (Mutex::new(100), Mutex::new(100));
        thread::scope(|s| {
            s.spawn(|| transfer(&one, &two, 30));
            transfer(&two, &one, 50);
        });
    }

    #[test]
    fn limit() {
        let counter = AtomicU32::new(0);
        thread::scope(|s| {
            s.spawn(|| count_up(&counter, 1));
            count_up(&counter, 1);
        });
        assert_eq!(counter.into_inner(), 1);
    }

    #[test]
    #[should_panic(expected = "less than nothing")]
    fn refused() {
        panic!("less than nothing");
    }

    #[test]
    #[ignore]
    fn left_out() {
        transfer(&Mutex::new(1), &Mutex::new(2), 1);
    }
}
