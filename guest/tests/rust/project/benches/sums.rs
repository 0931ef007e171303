//! A benchmark without a harness: the clock is the run's, so it says the same each time.

fn main() {
    let begin = std::time::Instant::now();
    println!("bench {}", project::sum_of_squares(&[7; 8]));
    println!("{}", begin.elapsed().as_micros() > 0);
}
