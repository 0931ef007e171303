//! As many threads as the machine has, one more, and many one after another.

use std::sync::mpsc::channel;
use std::thread;

fn at_once(count: usize) -> usize {
    let mut threads = Vec::new();
    for i in 0..count {
        let (stop, stopped) = channel::<()>();
        match thread::Builder::new().spawn(move || (i, stopped.recv().is_err())) {
            Ok(thread) => threads.push((thread, stop)),
            Err(error) => {
                println!("at {i}: {:?}", error.kind());
                break;
            }
        }
    }
    threads.into_iter().map(|(thread, stop)| (drop(stop), thread.join().unwrap().0).1).sum()
}

fn main() {
    println!("{}", at_once(40));
    println!("{}", at_once(300));
    println!("{}", (0..400).map(|i| thread::spawn(move || i).join().unwrap()).sum::<u32>());
}
