//! Barriers: nobody passes before all have come, and each round has one leader.

use std::sync::{
    atomic::{AtomicUsize, Ordering},
    Arc, Barrier,
};
use std::thread;

fn main() {
    let b = Arc::new(Barrier::new(5));
    let leaders = Arc::new(AtomicUsize::new(0));
    let inside = Arc::new(AtomicUsize::new(0));
    let hs: Vec<_> = (0..5)
        .map(|_| {
            let (b, l, n) = (b.clone(), leaders.clone(), inside.clone());
            thread::spawn(move || {
                let mut ok = true;
                for round in 1..=6 {
                    n.fetch_add(1, Ordering::SeqCst);
                    if b.wait().is_leader() {
                        l.fetch_add(1, Ordering::SeqCst);
                    }
                    ok &= n.load(Ordering::SeqCst) >= 5 * round;
                    b.wait();
                }
                ok
            })
        })
        .collect();
    for h in hs {
        println!("{}", h.join().unwrap());
    }
    println!("{} {}", leaders.load(Ordering::SeqCst), inside.load(Ordering::SeqCst));
}
