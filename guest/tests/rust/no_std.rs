//! A program without std: threads by foreign functions, an allocator and a panic handler of its own.

#![no_std]
#![no_main]
extern crate alloc;
use alloc::{boxed::Box, format, string::String, sync::Arc, vec::Vec};
use core::alloc::{GlobalAlloc, Layout};
use core::ffi::{c_char, c_int, c_void};
use core::sync::atomic::{AtomicU64, AtomicU8, AtomicUsize, Ordering};

extern "C" {
    fn pthread_create(t: *mut u32, a: *const c_void, f: extern "C" fn(*mut c_void) -> *mut c_void, x: *mut c_void) -> c_int;
    fn pthread_join(t: u32, r: *mut *mut c_void) -> c_int;
    fn memalign(a: usize, n: usize) -> *mut u8;
    fn free(p: *mut u8);
    fn puts(s: *const c_char) -> c_int;
    fn abort() -> !;
}

struct Kit;

unsafe impl GlobalAlloc for Kit {
    unsafe fn alloc(&self, l: Layout) -> *mut u8 {
        memalign(l.align(), l.size())
    }
    unsafe fn dealloc(&self, p: *mut u8, _: Layout) {
        free(p)
    }
}

#[global_allocator]

static KIT: Kit = Kit;

#[panic_handler]

fn panic(i: &core::panic::PanicInfo) -> ! {
    say(&format!("{i}"));
    unsafe { abort() }
}

fn say(s: &str) {
    let mut z = String::from(s);
    z.push('\0');
    unsafe {
        puts(z.as_ptr() as *const c_char);
    }
}

static COUNT: AtomicUsize = AtomicUsize::new(0);

static WIDE: AtomicU64 = AtomicU64::new(0xffff_ffff);

static BYTE: AtomicU8 = AtomicU8::new(0);

extern "C" fn work(x: *mut c_void) -> *mut c_void {
    let a: Box<Arc<AtomicUsize>> = unsafe { Box::from_raw(x as *mut _) };
    for _ in 0..100 {
        COUNT.fetch_add(1, Ordering::Relaxed);
        WIDE.fetch_add(1, Ordering::SeqCst);
        let mut old = a.load(Ordering::Relaxed);
        loop {
            match a.compare_exchange_weak(old, old + 2, Ordering::AcqRel, Ordering::Relaxed) {
                Ok(_) => break,
                Err(o) => old = o,
            }
        }
        BYTE.fetch_max(7, Ordering::Relaxed);
    }
    core::ptr::null_mut()
}

#[no_mangle]
pub extern "C" fn main(_: c_int, _: *const *const c_char) -> c_int {
    let a = Arc::new(AtomicUsize::new(0));
    let mut ts: Vec<u32> = Vec::new();
    for _ in 0..4 {
        let mut t = 0;
        let b = Box::new(a.clone());
        unsafe {
            pthread_create(&mut t, core::ptr::null(), work, Box::into_raw(b) as *mut c_void);
        }
        ts.push(t);
    }
    for t in ts {
        unsafe {
            pthread_join(t, core::ptr::null_mut());
        }
    }
    say(&format!(
        "count {} wide {:x} own {} byte {} strong {}",
        COUNT.load(Ordering::SeqCst),
        WIDE.load(Ordering::SeqCst),
        a.load(Ordering::SeqCst),
        BYTE.load(Ordering::SeqCst),
        Arc::strong_count(&a)
    ));
    0
}
