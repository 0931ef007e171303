//! What is made once, and an initialisation that panics.

use std::sync::{
    atomic::{AtomicU32, Ordering},
    LazyLock, Once, OnceLock,
};
use std::thread;

static N: AtomicU32 = AtomicU32::new(0);

static O: Once = Once::new();

static L: OnceLock<String> = OnceLock::new();

static Z: LazyLock<Vec<u32>> = LazyLock::new(|| {
    N.fetch_add(100, Ordering::SeqCst);
    (0..10).collect()
});

fn main() {
    thread::scope(|s| {
        for i in 0..6 {
            s.spawn(move || {
                O.call_once(|| {
                    thread::yield_now();
                    N.fetch_add(1, Ordering::SeqCst);
                });
                assert!(O.is_completed());
                let v = L.get_or_init(|| {
                    N.fetch_add(10, Ordering::SeqCst);
                    "made once".to_string()
                });
                assert_eq!(v, "made once");
                assert_eq!(Z[i], i as u32);
            });
        }
    });
    println!("{} {:?}", N.load(Ordering::SeqCst), L.get());
    static P: Once = Once::new();
    println!("{}", thread::spawn(|| P.call_once(|| panic!("in once"))).join().is_err());
    println!("{}", thread::spawn(|| P.call_once(|| ())).join().is_err());
    P.call_once_force(|s| println!("forced, poisoned {}", s.is_poisoned()));
    println!("{} {:?}", P.is_completed(), L.set("again".into()));
}
