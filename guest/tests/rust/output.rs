//! Output of several threads and of both streams.

use std::io::Write;

fn main() {
    std::thread::scope(|s| {
        for i in 0..4 {
            s.spawn(move || {
                for j in 0..5 {
                    println!("thread {i} line {j} {}", "x".repeat(50));
                }
            });
        }
    });
    print!("no newline");
    std::io::stdout().flush().unwrap();
    println!();
    let o = std::io::stdout();
    let mut l = o.lock();
    for i in 0..3 {
        writeln!(l, "locked {i}").unwrap();
    }
    drop(l);
    eprint!("err\n");
    dbg!(1 + 1);
}
