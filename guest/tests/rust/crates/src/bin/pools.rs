//! threadpool: answers by a channel, jobs that wait for each other, and one that panics.

use std::sync::atomic::{AtomicUsize, Ordering};
use std::sync::{mpsc, Arc, Barrier};
use threadpool::{Builder, ThreadPool};

/// Squares of numbers, each by a job.
fn squares(pool: &ThreadPool) -> u64 {
    let (answers, taken) = mpsc::channel();
    for number in 0..40_u64 {
        let answers = answers.clone();
        pool.execute(move || answers.send(number * number).unwrap());
    }
    drop(answers);
    taken.iter().sum()
}

/// Jobs that go on once all of them have begun.
fn meetings(pool: &ThreadPool) -> usize {
    let together = Arc::new(Barrier::new(pool.max_count() + 1));
    let met = Arc::new(AtomicUsize::new(0));
    for _ in 0..pool.max_count() {
        let (together, met) = (together.clone(), met.clone());
        pool.execute(move || {
            met.fetch_add(1, Ordering::SeqCst);
            together.wait();
        });
    }
    together.wait();
    met.load(Ordering::SeqCst)
}

fn main() {
    let pool = Builder::new().num_threads(4).thread_name("pool".into()).build();
    println!("squares {}", squares(&pool));
    println!("met {}", meetings(&pool));
    pool.execute(|| panic!("a job"));
    pool.join();
    println!("active {}, queued {}, panicked {}", pool.active_count(), pool.queued_count(), pool.panic_count());
    let mut smaller = pool.clone();
    smaller.set_num_threads(2);
    println!("threads {}, squares {}", pool.max_count(), squares(&smaller));
}
