//! A crate with a build script, a macro of another crate, and tests of each kind.

use std::sync::Mutex;
use std::thread;

include!(concat!(env!("OUT_DIR"), "/made.rs"));

/// Adds the squares of numbers, a thread for each part.
///
/// ```
/// assert_eq!(project::sum_of_squares(&[1, 2, 3]), 14);
/// ```
pub fn sum_of_squares(numbers: &[u64]) -> u64 {
    let sum = Mutex::new(0);
    thread::scope(|s| {
        for part in numbers.chunks(2) {
            s.spawn(|| *sum.lock().unwrap() += part.iter().map(|it| part::square(*it)).sum::<u64>());
        }
    });
    sum.into_inner().unwrap()
}

#[cfg(test)]
mod tests {
    use super::*;

    #[test]
    fn sums() {
        assert_eq!(sum_of_squares(&[1, 2, 3, 4, 5]), 55);
    }

    #[test]
    #[should_panic(expected = "not a square")]
    fn panics() {
        panic!("{} is not a square", macros::seven!());
    }

    #[test]
    fn target() {
        assert_eq!(TARGET, "riscv32im-dthreads");
    }

    static mut COUNT: u32 = 0;

    fn count() {
        unsafe { COUNT += 1 }
    }

    /// Nothing orders the two threads.
    #[test]
    fn unordered() {
        thread::scope(|s| {
            s.spawn(count);
            s.spawn(count);
        });
    }
}
