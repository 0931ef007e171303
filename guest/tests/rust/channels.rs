//! Channels: unbounded, bounded, of no length, closed at either end.

use std::sync::mpsc::*;
use std::thread;
use std::time::Duration;

fn main() {
    let (tx, rx) = channel();
    for i in 0..5u32 {
        let tx = tx.clone();
        thread::spawn(move || {
            for j in 0..20 {
                tx.send(i * 100 + j).unwrap();
            }
        });
    }
    drop(tx);
    let mut v: Vec<_> = rx.iter().collect();
    v.sort();
    println!("{} {} {}", v.len(), v[0], v[99]);
    let (tx, rx) = sync_channel(2);
    let h = thread::spawn(move || {
        for i in 0..10 {
            tx.send(i).unwrap();
        }
    });
    println!("{:?}", rx.recv());
    println!("{:?}", rx.iter().take(9).collect::<Vec<_>>());
    h.join().unwrap();
    println!("{:?} {:?}", rx.recv(), rx.try_recv());
    let (tx, rx) = sync_channel::<i32>(0);
    let h = thread::spawn(move || {
        let mut s = 0;
        while let Ok(x) = rx.recv() {
            s += x;
        }
        s
    });
    for i in 0..10 {
        tx.send(i).unwrap();
    }
    drop(tx);
    println!("{}", h.join().unwrap());
    let (tx, rx) = channel::<()>();
    println!("{:?} {:?}", rx.try_recv(), rx.recv_timeout(Duration::from_millis(10)));
    drop(rx);
    println!("{:?}", tx.send(()));
    let (tx, rx) = channel::<Box<dyn FnOnce() -> u32 + Send>>();
    let (rt, rr) = channel();
    let w = thread::spawn(move || {
        for f in rx {
            rt.send(f()).unwrap();
        }
    });
    for i in 0..4 {
        tx.send(Box::new(move || i * i)).unwrap();
    }
    drop(tx);
    println!("{:?}", rr.iter().collect::<Vec<_>>());
    w.join().unwrap();
    let (tx, rx) = sync_channel(1);
    println!("{:?} {:?}", tx.try_send(1), tx.try_send(2));
    drop(rx);
    println!("{:?}", tx.try_send(3));
}
