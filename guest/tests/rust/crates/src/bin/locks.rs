//! parking_lot: locks that park threads by a table of its own.

use parking_lot::*;
use std::sync::Arc;
use std::thread;
fn main() {
    static M: Mutex<u32> = const_mutex(0);
    static R: RwLock<u32> = const_rwlock(0);
    thread::scope(|s| {
        for _ in 0..4 {
            s.spawn(|| {
                for _ in 0..50 {
                    *M.lock() += 1;
                    *R.write() += 1;
                    let _ = *R.read();
                }
            });
        }
    });
    println!("{} {}", *M.lock(), *R.read());
    let p = Arc::new((Mutex::new(false), Condvar::new()));
    let q = p.clone();
    let h = thread::spawn(move || {
        let mut g = q.0.lock();
        while !*g {
            q.1.wait(&mut g);
        }
        5
    });
    *p.0.lock() = true;
    p.1.notify_all();
    println!("{}", h.join().unwrap());
    let rm = ReentrantMutex::new(3);
    let a = rm.lock();
    let b = rm.lock();
    println!("{}", *a + *b);
}
