//! Mutexes: exclusion, poison, and one that is static.

use std::sync::{Arc, Mutex, TryLockError};
use std::thread;

fn main() {
    let m = Arc::new(Mutex::new(0u64));
    let hs: Vec<_> = (0..8)
        .map(|i| {
            let m = m.clone();
            thread::spawn(move || {
                for _ in 0..50 {
                    *m.lock().unwrap() += i;
                }
            })
        })
        .collect();
    for h in hs {
        h.join().unwrap();
    }
    println!("sum {}", *m.lock().unwrap());
    let g = m.lock().unwrap();
    let m2 = m.clone();
    println!("{}", thread::spawn(move || matches!(m2.try_lock(), Err(TryLockError::WouldBlock))).join().unwrap());
    drop(g);
    let m2 = m.clone();
    let r = thread::spawn(move || {
        let _g = m2.lock().unwrap();
        panic!("with the lock");
    })
    .join();
    println!("join {:?} poisoned {}", r.is_err(), m.is_poisoned());
    match m.lock() {
        Ok(_) => println!("no poison?"),
        Err(e) => println!("poisoned value {}", *e.into_inner()),
    }
    m.clear_poison();
    println!("{:?}", m);
    println!("{}", Arc::try_unwrap(m).unwrap().into_inner().unwrap());
    static GLOBAL: Mutex<Vec<i32>> = Mutex::new(Vec::new());
    thread::scope(|s| {
        for i in 0..4 {
            s.spawn(move || GLOBAL.lock().unwrap().push(i));
        }
    });
    let mut v = GLOBAL.lock().unwrap().clone();
    v.sort();
    println!("{v:?}");
}
