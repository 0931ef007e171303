//! Thread locals, and their destructors at the end of a thread.

use std::cell::{Cell, RefCell};
use std::sync::atomic::{AtomicU32, Ordering};
use std::thread;

static DROPS: AtomicU32 = AtomicU32::new(0);

struct D(u32);

impl Drop for D {
    fn drop(&mut self) {
        DROPS.fetch_add(self.0, Ordering::SeqCst);
    }
}

thread_local! {
    static A: RefCell<Vec<u32>> = RefCell::new(vec![1]);
    static B: Cell<u64> = const { Cell::new(5) };
    static C: RefCell<Option<D>> = const { RefCell::new(None) };
    static BIG: RefCell<[u64; 64]> = const { RefCell::new([7; 64]) };
}

fn main() {
    A.with_borrow_mut(|a| a.push(2));
    B.set(6);
    for i in 1..=4 {
        thread::spawn(move || {
            A.with_borrow_mut(|a| a.push(i));
            assert_eq!(A.with_borrow(|a| a.clone()), [1, i]);
            assert_eq!(B.replace(9), 5);
            C.set(Some(D(i)));
            assert_eq!(BIG.with_borrow(|b| b[63]), 7);
            BIG.with_borrow_mut(|b| b[63] = 1);
        })
        .join()
        .unwrap();
    }
    println!("{:?} {} drops {}", A.take(), B.get(), DROPS.load(Ordering::SeqCst));
    let hs: Vec<_> = (0..8)
        .map(|i| {
            thread::spawn(move || {
                B.set(i);
                thread::yield_now();
                B.get()
            })
        })
        .collect();
    println!("{:?}", hs.into_iter().map(|h| h.join().unwrap()).collect::<Vec<_>>());
    struct Last;
    impl Drop for Last {
        fn drop(&mut self) {
            println!("last of {:?}", A.try_with(|a| a.borrow().len()).is_ok());
        }
    }
    thread_local!(static E: RefCell<Option<Last>> = RefCell::new(None));
    thread::spawn(|| E.with(|e| *e.borrow_mut() = Some(Last))).join().unwrap();
}
