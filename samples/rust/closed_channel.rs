//! A channel that is closed too early: main takes one answer of each worker, and one of them has two.

use std::sync::mpsc::channel;
use std::thread;
use std::time::Duration;

fn main() {
    let (answers, taken) = channel();
    let workers: Vec<_> = (1..=3)
        .map(|number| {
            let answers = answers.clone();
            thread::spawn(move || {
                for part in 0..1 + number / 3 {
                    thread::sleep(Duration::from_millis(1));
                    answers.send((number, part)).expect("nobody takes the answer");
                }
            })
        })
        .collect();
    let mut all: Vec<_> = taken.into_iter().take(workers.len()).collect();
    all.sort();
    println!("{all:?}");
    for (number, worker) in (1..).zip(workers) {
        println!("worker {number}: {}", if worker.join().is_ok() { "done" } else { "panicked" });
    }
}
