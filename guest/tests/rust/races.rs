//! Races by the ways that `unsafe` has: a static, a raw pointer, a cell. Each is two threads that store.

use std::cell::UnsafeCell;
use std::thread;

struct Shared(UnsafeCell<[u32; 4]>);

unsafe impl Sync for Shared {}

static mut COUNTER: u32 = 0;
static TABLE: Shared = Shared(UnsafeCell::new([0; 4]));

#[inline(never)]
fn counts() {
    unsafe { COUNTER += 1 };
}

#[inline(never)]
fn sets(place: usize, value: u32) {
    unsafe { *(place as *mut u32) = value };
}

#[inline(never)]
fn fills(value: u32) {
    unsafe { (*TABLE.0.get())[1] = value };
}

fn main() {
    let place = Box::leak(Box::new(0u32)) as *mut u32 as usize;
    for value in 1..=2 {
        thread::scope(|s| {
            for thread in 0..2 {
                s.spawn(move || {
                    counts();
                    sets(place, 10 * value + thread);
                    fills(10 * value + thread);
                });
            }
        });
    }
    println!("{} {} {:?}", unsafe { COUNTER }, unsafe { *(place as *const u32) }, unsafe { *TABLE.0.get() });
}
