//! Atomic objects of each size, fences, and plain data that they order.

use std::sync::atomic::*;
use std::thread;

macro_rules! each_operation {
    ($($atomic:ident $number:ty),*) => { $({
        static X: $atomic = $atomic::new(1);
        let x = &X;
        thread::scope(|s| {
            for i in 0..4 {
                s.spawn(move || (0..10).for_each(|j| _ = x.fetch_add((i * 10 + j) as $number, Ordering::Relaxed)));
            }
        });
        print!("{} {}: ", stringify!($atomic), x.load(Ordering::SeqCst));
        print!("{} ", x.swap(100, Ordering::AcqRel));
        print!("{} ", x.fetch_sub(3, Ordering::Release));
        print!("{} ", x.fetch_and(0x5f, Ordering::Acquire));
        print!("{} ", x.fetch_or(0x22, Ordering::SeqCst));
        print!("{} ", x.fetch_xor(0x11, Ordering::SeqCst));
        print!("{} ", x.fetch_nand(0x0f, Ordering::SeqCst));
        print!("{} ", x.fetch_max(9, Ordering::SeqCst));
        print!("{} ", x.fetch_min(4, Ordering::SeqCst));
        let now = x.load(Ordering::SeqCst);
        print!("{} ", x.compare_exchange(77, 5, Ordering::SeqCst, Ordering::Relaxed).is_ok());
        print!("{} ", x.compare_exchange(now, 5, Ordering::SeqCst, Ordering::Relaxed).is_ok());
        x.store(<$number>::MAX, Ordering::Release);
        x.fetch_add(2, Ordering::SeqCst);
        print!("{:?} ", x.fetch_update(Ordering::SeqCst, Ordering::SeqCst, |it| it.checked_mul(0)));
        println!("{}", x.load(Ordering::Acquire));
    })* };
}

fn main() {
    each_operation!(AtomicU8 u8, AtomicI8 i8, AtomicU16 u16, AtomicI16 i16);
    each_operation!(AtomicU32 u32, AtomicI32 i32, AtomicU64 u64, AtomicI64 i64);
    static U: AtomicUsize = AtomicUsize::new(0);
    static I: AtomicIsize = AtomicIsize::new(0);
    thread::scope(|s| {
        for _ in 0..8 {
            s.spawn(|| {
                for _ in 0..25 {
                    U.fetch_add(1, Ordering::Relaxed);
                    I.fetch_sub(1, Ordering::Relaxed);
                }
            });
        }
    });
    println!("{} {}", U.load(Ordering::SeqCst), I.load(Ordering::SeqCst));
    static B: AtomicBool = AtomicBool::new(false);
    println!(
        "{} {} {} {}",
        B.swap(true, Ordering::SeqCst),
        B.fetch_and(false, Ordering::SeqCst),
        B.fetch_not(Ordering::SeqCst),
        B.load(Ordering::SeqCst)
    );
    let mut v = 3;
    let p = AtomicPtr::new(&mut v as *mut i32);
    let mut w = 4;
    let old = p.swap(&mut w, Ordering::SeqCst);
    unsafe {
        println!("{} {}", *old, *p.load(Ordering::SeqCst));
    }
    // message passing and a fence
    static DATA: AtomicU64 = AtomicU64::new(0);
    static READY: AtomicBool = AtomicBool::new(false);
    thread::scope(|s| {
        s.spawn(|| {
            DATA.store(0x1234_5678_9abc_def0, Ordering::Relaxed);
            fence(Ordering::Release);
            READY.store(true, Ordering::Relaxed);
        });
        s.spawn(|| {
            while !READY.load(Ordering::Relaxed) {
                std::hint::spin_loop();
            }
            fence(Ordering::Acquire);
            println!("{:x}", DATA.load(Ordering::Relaxed));
        });
    });
    // plain data by a fence
    static mut PLAIN: u32 = 0;
    static GO: AtomicBool = AtomicBool::new(false);
    thread::scope(|s| {
        s.spawn(|| {
            unsafe {
                PLAIN = 42;
            }
            GO.store(true, Ordering::Release);
        });
        s.spawn(|| {
            while !GO.load(Ordering::Acquire) {}
            println!("{}", unsafe { PLAIN });
        });
    });
}
