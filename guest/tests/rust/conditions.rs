//! Condition variables: a bounded queue, and waits that time out.

use std::collections::VecDeque;
use std::sync::{Arc, Condvar, Mutex};
use std::thread;
use std::time::Duration;

fn main() {
    let q = Arc::new((Mutex::new((VecDeque::new(), false)), Condvar::new(), Condvar::new()));
    let cs: Vec<_> = (0..3)
        .map(|_| {
            let q = q.clone();
            thread::spawn(move || {
                let mut sum = 0u64;
                loop {
                    let mut g = q.1.wait_while(q.0.lock().unwrap(), |g| g.0.is_empty() && !g.1).unwrap();
                    match g.0.pop_front() {
                        Some(x) => {
                            sum += x;
                            q.2.notify_one();
                        }
                        None => return sum,
                    }
                }
            })
        })
        .collect();
    let ps: Vec<_> = (0..2)
        .map(|p| {
            let q = q.clone();
            thread::spawn(move || {
                for i in 0..30u64 {
                    let mut g = q.0.lock().unwrap();
                    while g.0.len() >= 4 {
                        g = q.2.wait(g).unwrap();
                    }
                    g.0.push_back(p * 1000 + i);
                    drop(g);
                    q.1.notify_one();
                }
            })
        })
        .collect();
    for p in ps {
        p.join().unwrap();
    }
    q.0.lock().unwrap().1 = true;
    q.1.notify_all();
    println!("total {}", cs.into_iter().map(|c| c.join().unwrap()).sum::<u64>());
    let m = Mutex::new(());
    let c = Condvar::new();
    let (_g, r) = c.wait_timeout(m.lock().unwrap(), Duration::from_millis(20)).unwrap();
    println!("timed out {}", r.timed_out());
    drop(_g);
    let (_g, r) = c.wait_timeout_while(m.lock().unwrap(), Duration::from_millis(20), |_| true).unwrap();
    println!("timed out {}", r.timed_out());
    drop(_g);
    let pair = Arc::new((Mutex::new(false), Condvar::new()));
    let p2 = pair.clone();
    let h = thread::spawn(move || {
        thread::sleep(Duration::from_millis(30));
        *p2.0.lock().unwrap() = true;
        p2.1.notify_one();
    });
    let (g, r) = pair.1.wait_timeout_while(pair.0.lock().unwrap(), Duration::from_secs(60), |b| !*b).unwrap();
    println!("{} {}", *g, r.timed_out());
    drop(g);
    h.join().unwrap();
}
