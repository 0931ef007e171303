//! A stack, a spin lock and a ring without locks.

use std::cell::UnsafeCell;
use std::ptr;
use std::sync::atomic::*;
use std::thread;

struct Node {
    v: u32,
    next: *mut Node,
}

struct Stack {
    head: AtomicPtr<Node>,
    n: AtomicUsize,
}

unsafe impl Sync for Stack {}

impl Stack {
    fn push(&self, v: u32) {
        let n = Box::into_raw(Box::new(Node { v, next: ptr::null_mut() }));
        loop {
            let h = self.head.load(Ordering::Relaxed);
            unsafe {
                (*n).next = h;
            }
            if self.head.compare_exchange_weak(h, n, Ordering::Release, Ordering::Relaxed).is_ok() {
                self.n.fetch_add(1, Ordering::Relaxed);
                return;
            }
        }
    }
    fn pop(&self) -> Option<u32> {
        loop {
            let h = self.head.load(Ordering::Acquire);
            if h.is_null() {
                return None;
            }
            let next = unsafe { (*h).next };
            if self.head.compare_exchange(h, next, Ordering::AcqRel, Ordering::Relaxed).is_ok() {
                return Some(unsafe { (*h).v });
            }
        }
    }
}

struct Spin<T> {
    l: AtomicBool,
    v: UnsafeCell<T>,
}

unsafe impl<T: Send> Sync for Spin<T> {}
impl<T> Spin<T> {
    fn with<R>(&self, f: impl FnOnce(&mut T) -> R) -> R {
        while self.l.compare_exchange_weak(false, true, Ordering::Acquire, Ordering::Relaxed).is_err() {
            std::hint::spin_loop();
        }
        let r = f(unsafe { &mut *self.v.get() });
        self.l.store(false, Ordering::Release);
        r
    }
}

fn main() {
    let s = Stack { head: AtomicPtr::new(ptr::null_mut()), n: AtomicUsize::new(0) };
    thread::scope(|t| {
        for i in 0..4 {
            let s = &s;
            t.spawn(move || {
                for j in 0..25 {
                    s.push(i * 100 + j);
                }
            });
        }
    });
    let mut v = vec![];
    while let Some(x) = s.pop() {
        v.push(x);
    }
    v.sort();
    println!("{} {} {}", v.len(), v[0], v[99]);
    let sp = Spin { l: AtomicBool::new(false), v: UnsafeCell::new(vec![0u32; 3]) };
    thread::scope(|t| {
        for i in 0..3 {
            let sp = &sp;
            t.spawn(move || {
                for _ in 0..30 {
                    sp.with(|v| v[i] += 1);
                }
            });
        }
    });
    println!("{:?}", sp.with(|v| v.clone()));
    const N: usize = 4;
    struct Ring {
        b: [UnsafeCell<u32>; N],
        h: AtomicUsize,
        t: AtomicUsize,
    }
    unsafe impl Sync for Ring {}
    impl Ring {
        fn at(&self, i: usize) -> *mut u32 {
            self.b[i % N].get()
        }
    }
    let r = Ring { b: Default::default(), h: AtomicUsize::new(0), t: AtomicUsize::new(0) };
    let sum = thread::scope(|s| {
        s.spawn(|| {
            for i in 1..=50u32 {
                let t = r.t.load(Ordering::Relaxed);
                while t - r.h.load(Ordering::Acquire) == N {
                    thread::yield_now();
                }
                unsafe {
                    *r.at(t) = i;
                }
                r.t.store(t + 1, Ordering::Release);
            }
        });
        s.spawn(|| {
            let mut sum = 0;
            for _ in 0..50 {
                let h = r.h.load(Ordering::Relaxed);
                while r.t.load(Ordering::Acquire) == h {
                    thread::yield_now();
                }
                sum += unsafe { *r.at(h) };
                r.h.store(h + 1, Ordering::Release);
            }
            sum
        })
        .join()
        .unwrap()
    });
    println!("{sum}");
}
