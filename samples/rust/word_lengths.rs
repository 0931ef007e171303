//! A pool that is right: threads draw lines of the input, and each brings its own counts.

use std::collections::BTreeMap;
use std::io::stdin;
use std::thread;

type Counts = BTreeMap<usize, u32>;

fn count_lines() -> Counts {
    let mut counts = Counts::new();
    let mut line = String::new();
    while stdin().read_line(&mut line).unwrap() > 0 {
        for word in line.split_whitespace() {
            *counts.entry(word.len()).or_insert(0) += 1;
        }
        line.clear();
    }
    counts
}

fn main() {
    let threads: Vec<_> = (0..4).map(|_| thread::spawn(count_lines)).collect();
    let mut all = Counts::new();
    for thread in threads {
        for (length, times) in thread.join().unwrap() {
            *all.entry(length).or_insert(0) += times;
        }
    }
    for (length, times) in all {
        println!("{length:2} {times}");
    }
}
