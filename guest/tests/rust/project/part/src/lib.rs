//! A crate below another one.

pub fn square(number: u64) -> u64 {
    number * number
}
