//! The end by abort.

fn main() {
    println!("before");
    std::process::abort();
}
