//! Memory that can't be had: as an error, and as the end of the program.

use std::alloc::Layout;

fn main() {
    println!("{:?}", Vec::<u8>::new().try_reserve(1 << 30).is_err());
    println!("{:?}", Vec::<u64>::new().try_reserve(usize::MAX).is_err());
    let aligned = Layout::from_size_align(100, 4096).unwrap();
    let place = unsafe { std::alloc::alloc_zeroed(aligned) };
    println!("{} {}", place as usize % 4096, unsafe { *place.add(99) });
    unsafe { std::alloc::dealloc(place, aligned) };
    let mut kept = Vec::new();
    for i in 0.. {
        kept.push(vec![i as u8; 8 << 20]);
    }
}
