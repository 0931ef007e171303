//! Operations of std, done as often as the second argument says, by or beside another thread: what `tools/dt measure rust` counts.

use std::hint::black_box;
use std::sync::atomic::{AtomicU64, AtomicUsize, Ordering};
use std::sync::{mpsc, Arc, Condvar, Mutex, OnceLock, RwLock};
use std::thread;

static NUMBER: AtomicUsize = AtomicUsize::new(0);
static WIDE: AtomicU64 = AtomicU64::new(0);
static MUTEX: Mutex<u32> = Mutex::new(0);
static RWLOCK: RwLock<u32> = RwLock::new(0);
static ONCE: OnceLock<u32> = OnceLock::new();
static TURN: (Mutex<bool>, Condvar) = (Mutex::new(false), Condvar::new());

fn in_another(times: usize, does: impl Fn() + Send + 'static) {
    thread::spawn(move || (0..times).for_each(|_| does())).join().unwrap();
}

/// Waits for its turn and hands it on.
fn exchanges(times: usize, mine: bool) {
    for _ in 0..times {
        let mut turn = TURN.0.lock().unwrap();
        while *turn != mine {
            turn = TURN.1.wait(turn).unwrap();
        }
        *turn = !mine;
        TURN.1.notify_one();
    }
}

fn sends(times: usize) {
    let (answers, taken) = mpsc::channel();
    let sum = thread::spawn(move || taken.iter().sum::<usize>());
    (0..times).for_each(|it| answers.send(it).unwrap());
    drop(answers);
    sum.join().unwrap();
}

/// Each side parks and unparks half as often.
fn parks(times: usize) {
    let times = times / 2;
    let first = thread::current();
    let second = thread::spawn(move || {
        for _ in 0..times {
            first.unpark();
            thread::park();
        }
    });
    for _ in 0..times {
        thread::park();
        second.thread().unpark();
    }
    second.join().unwrap();
}

fn main() {
    let words: Vec<String> = std::env::args().collect();
    let times = words[2].parse().unwrap();
    ONCE.set(3).unwrap();
    match words[1].as_str() {
        "spawn" => (0..times).for_each(|_| thread::spawn(|| ()).join().unwrap()),
        "fetch_add" => in_another(times, || _ = NUMBER.fetch_add(1, Ordering::SeqCst)),
        "fetch_add_64" => in_another(times, || _ = WIDE.fetch_add(1, Ordering::SeqCst)),
        "mutex" => in_another(times, || *MUTEX.lock().unwrap() += 1),
        "read" => in_another(times, || _ = black_box(*RWLOCK.read().unwrap())),
        "write" => in_another(times, || *RWLOCK.write().unwrap() += 1),
        "once" => in_another(times, || _ = black_box(ONCE.get())),
        "arc" => {
            let shared = Arc::new(1);
            in_another(times, move || drop(black_box(shared.clone())));
        }
        "condvar" => {
            let other = thread::spawn(move || exchanges(times, true));
            exchanges(times, false);
            other.join().unwrap();
        }
        "mpsc" => sends(times),
        "park" => parks(times),
        "println" => in_another(times, || println!("x")),
        _ => panic!("no such operation"),
    }
}
