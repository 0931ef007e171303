//! Clocks and sleeps.

use std::time::*;

fn main() {
    let a = Instant::now();
    std::thread::sleep(Duration::from_millis(25));
    let e = a.elapsed();
    println!("{} {}", e >= Duration::from_millis(25), e < Duration::from_secs(5));
    println!("{}", SystemTime::now().duration_since(UNIX_EPOCH).unwrap().as_secs() > 900_000_000);
    println!("{}", Instant::now() >= a);
    println!("{:?}", Duration::from_millis(1500) * 3);
}
