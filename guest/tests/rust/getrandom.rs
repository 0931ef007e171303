//! What the crate getrandom asks of the kit's library, as its versions 0.2 and 0.3 declare it.

use std::num::NonZeroU32;

/// The error of version 0.3.
#[derive(Debug)]
#[allow(dead_code)]
struct Error(NonZeroU32);

unsafe extern "C" {
    fn __getrandom_custom(bytes: *mut u8, length: usize) -> u32;
}
unsafe extern "Rust" {
    fn __getrandom_v03_custom(bytes: *mut u8, length: usize) -> Result<(), Error>;
}

/// Whether most of the bytes differ from the one before.
fn are_mixed(bytes: &[u8]) -> bool {
    bytes.windows(2).filter(|it| it[0] != it[1]).count() > bytes.len() * 9 / 10
}

fn main() {
    let (mut one, mut other) = ([0; 1000], [0; 1000]);
    println!("0.2: {}", unsafe { __getrandom_custom(one.as_mut_ptr(), one.len()) });
    println!("0.3: {:?}", unsafe { __getrandom_v03_custom(other.as_mut_ptr(), other.len()) });
    println!("mixed {} {}, others {}", are_mixed(&one), are_mixed(&other), one != other);
    println!("nothing {:?}", unsafe { __getrandom_v03_custom(other.as_mut_ptr(), 0) });
}
