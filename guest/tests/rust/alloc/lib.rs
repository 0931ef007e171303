//! The crate of the tests that lie beside alloc's sources: the modules that have them, built anew with what these tests ask for.
//! It stands for the crate alloctests, which Debian's sources lack. The features are those of alloc, and come from the command line.
#![no_std]
#![unstable(feature = "alloctests", issue = "none")]

extern crate alloc as realalloc;
extern crate std;
extern crate test;

// The tests use std's prelude, as their crate has it.
#[prelude_import]
#[allow(unused_imports)]
use std::prelude::rust_2024::*;

use realalloc::*;

mod testing;

#[path = "/usr/lib/rustlib/src/rust/library/alloc/src/collections/mod.rs"]
mod collections;
#[path = "/usr/lib/rustlib/src/rust/library/alloc/src/raw_vec/mod.rs"]
mod raw_vec;
#[path = "/usr/lib/rustlib/src/rust/library/alloc/src/wtf8/mod.rs"]
mod wtf8;

pub(crate) mod test_helpers {
    use rand::SeedableRng;

    pub(crate) fn test_rng() -> rand_xorshift::XorShiftRng {
        rand_xorshift::XorShiftRng::from_seed(*b"the same numbers")
    }
}
