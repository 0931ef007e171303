//! Threads with names, numbers, stacks and results.

use std::thread;

fn main() {
    let hs: Vec<_> = (0..8u64)
        .map(|i| {
            thread::Builder::new()
                .name(format!("worker-{i}"))
                .spawn(move || {
                    assert_eq!(thread::current().name(), Some(format!("worker-{i}").as_str()));
                    (1..=i * 1000).sum::<u64>()
                })
                .unwrap()
        })
        .collect();
    for (i, h) in hs.into_iter().enumerate() {
        let name = h.thread().name().unwrap().to_string();
        println!("{i} {name} {}", h.join().unwrap());
    }
    println!("main is {:?}", thread::current().name());
    let a = thread::spawn(|| thread::current().id()).join().unwrap();
    println!("ids differ: {}", a != thread::current().id());
    println!("parallelism at least one: {}", thread::available_parallelism().unwrap().get() >= 1);
    let h = thread::Builder::new()
        .stack_size(1 << 20)
        .spawn(|| {
            let mut a = [0u8; 500_000];
            a[499_999] = 3;
            std::hint::black_box(&mut a);
            a[499_999]
        })
        .unwrap();
    println!("big stack {}", h.join().unwrap());
    let h = thread::spawn(|| {
        for _ in 0..10 {
            thread::yield_now();
        }
        "yielded"
    });
    println!("{} {}", h.join().unwrap(), thread::spawn(|| {}).join().is_ok());
}
