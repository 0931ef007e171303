//! Read-write locks: readers see whole changes, poison.

use std::sync::{Arc, RwLock, RwLockWriteGuard};
use std::thread;

fn main() {
    let l = Arc::new(RwLock::new(vec![0u32; 4]));
    let ws: Vec<_> = (0..4)
        .map(|i| {
            let l = l.clone();
            thread::spawn(move || {
                for _ in 0..25 {
                    let mut w = l.write().unwrap();
                    w[i] += 1;
                    w[(i + 1) % 4] += 1;
                }
            })
        })
        .collect();
    let rs: Vec<_> = (0..4)
        .map(|_| {
            let l = l.clone();
            thread::spawn(move || {
                let mut even = true;
                for _ in 0..25 {
                    let r = l.read().unwrap();
                    even &= r.iter().sum::<u32>() % 2 == 0;
                }
                even
            })
        })
        .collect();
    for w in ws {
        w.join().unwrap();
    }
    for r in rs {
        println!("{}", r.join().unwrap());
    }
    println!("{:?}", l.read().unwrap());
    let r1 = l.read().unwrap();
    println!("{} {}", l.try_read().is_ok(), l.try_write().is_err());
    drop(r1);
    println!("{}", l.try_write().is_ok());
    let l2 = l.clone();
    println!(
        "{}",
        thread::spawn(move || {
            let _w = l2.write().unwrap();
            panic!("x")
        })
        .join()
        .is_err()
    );
    println!("{}", l.is_poisoned());
    downgrades();
}

/// A writer becomes a reader, and no other writer comes between.
fn downgrades() {
    let lock = RwLock::new(0);
    thread::scope(|s| {
        let mut writer = lock.write().unwrap();
        s.spawn(|| *lock.write().unwrap() += 10);
        thread::yield_now();
        *writer += 1;
        let reader = RwLockWriteGuard::downgrade(writer);
        println!("{} {}", *reader, lock.try_write().is_err());
    });
    println!("{}", lock.into_inner().unwrap());
}
