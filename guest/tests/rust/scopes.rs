//! Scoped threads, which borrow from their maker.

use std::thread;

fn main() {
    let mut a: Vec<u64> = (0..1000).collect();
    let sums: Vec<u64> = thread::scope(|s| {
        let hs: Vec<_> = a.chunks(250).map(|c| s.spawn(move || c.iter().sum::<u64>())).collect();
        hs.into_iter().map(|h| h.join().unwrap()).collect()
    });
    println!("{sums:?}");
    thread::scope(|s| {
        for c in a.chunks_mut(100) {
            s.spawn(move || {
                for x in c {
                    *x *= 2;
                }
            });
        }
    });
    println!("{}", a.iter().sum::<u64>());
    let mut x = 1;
    thread::scope(|s| {
        s.spawn(|| {
            s.spawn(|| println!("nested"));
        });
    });
    thread::scope(|s| {
        s.spawn(|| x += 1);
    });
    println!("{x}");
    let r = std::panic::catch_unwind(|| {
        thread::scope(|s| {
            s.spawn(|| panic!("in scope"));
        })
    });
    println!("{:?}", r.unwrap_err().downcast_ref::<&str>());
}
