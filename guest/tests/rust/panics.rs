//! Panics: unwinding through destructors, caught ones, the hook, and that of main.

use std::panic::{self, AssertUnwindSafe};
use std::thread;

struct Loud(&'static str);

impl Drop for Loud {
    fn drop(&mut self) {
        println!("drop {} panicking {}", self.0, thread::panicking());
    }
}

fn deep(n: u32) -> u32 {
    let _l = Loud("deep");
    if n == 0 {
        panic!("at the bottom {}", n)
    }
    deep(n - 1) + 1
}

fn main() {
    panic::set_hook(Box::new(|i| println!("hook: {} line {}", i.payload_as_str().unwrap_or("?"), i.location().unwrap().line())));
    let r = thread::spawn(|| {
        let _a = Loud("a");
        deep(2)
    })
    .join();
    println!("{:?}", r.unwrap_err().downcast_ref::<String>());
    let r = panic::catch_unwind(|| {
        let v: Vec<i32> = vec![];
        v[std::hint::black_box(3)]
    });
    println!("{}", r.is_err());
    let r = panic::catch_unwind(|| panic::panic_any(17u64));
    println!("{:?}", r.unwrap_err().downcast_ref::<u64>());
    let r = thread::spawn(|| panic::resume_unwind(Box::new("resumed"))).join();
    println!("{:?}", r.unwrap_err().downcast_ref::<&str>());
    let mut n = 0;
    let r = panic::catch_unwind(AssertUnwindSafe(|| {
        n += 1;
        let x: Option<u32> = None;
        x.expect("nothing")
    }));
    println!("{} {}", r.is_err(), n);
    let r = panic::catch_unwind(|| {
        let _l = Loud("outer");
        let r = panic::catch_unwind(|| panic!("inner"));
        assert!(r.is_err());
        thread::panicking()
    });
    println!("{:?}", r.is_ok());
    println!("{}", (std::hint::black_box(200u8)).checked_add(100).is_none());
    for i in 0..3 {
        let _ = thread::spawn(move || {
            if i == 1 {
                panic!("one of three")
            }
        })
        .join()
        .map_err(|_| println!("err {i}"));
    }
    let _ = panic::take_hook();
    panic!("the end");
}
