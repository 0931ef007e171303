//! Prints a sum, its arguments and the target.

fn main() {
    let numbers: Vec<u64> = (0..10).collect();
    println!("{} {} {}", project::sum_of_squares(&numbers), macros::seven!(), project::TARGET);
    println!("{:?}", std::env::args().skip(1).collect::<Vec<_>>());
}
