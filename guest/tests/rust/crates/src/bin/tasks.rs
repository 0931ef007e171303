//! futures and async-channel: tasks of a pool of threads, channels between them and plain threads, and futures that are waited for
//! together.

use async_channel::{bounded, unbounded};
use futures::executor::{block_on, ThreadPool};
use futures::future::{join_all, select, Either};
use futures::lock::Mutex;
use futures::stream::{FuturesUnordered, StreamExt};
use futures::task::SpawnExt;
use std::sync::Arc;
use std::thread;

/// Tasks send numbers through a small channel; a thread takes them.
fn sum_by_channel(pool: &ThreadPool) -> u64 {
    let (numbers, taken) = bounded(2);
    for part in 0..4_u64 {
        let numbers = numbers.clone();
        pool.spawn(async move {
            for number in 0..10 {
                numbers.send(part * 10 + number).await.unwrap();
            }
        })
        .unwrap();
    }
    drop(numbers);
    thread::spawn(move || block_on(taken.fold(0, |sum, it| async move { sum + it }))).join().unwrap()
}

/// Tasks add to one number under a lock that waits without blocking its thread.
async fn add_together(pool: &ThreadPool) -> u32 {
    let count = Arc::new(Mutex::new(0));
    let every = (0..8).map(|_| {
        let count = count.clone();
        pool.spawn_with_handle(async move { *count.lock().await += 1 }).unwrap()
    });
    join_all(every).await;
    let found = *count.lock().await;
    found
}

fn main() {
    let pool = ThreadPool::builder().pool_size(3).create().unwrap();
    println!("{}", sum_by_channel(&pool));
    println!("{}", block_on(add_together(&pool)));
    let (words, taken) = unbounded::<&str>();
    let never = taken.clone();
    words.try_send("one").unwrap();
    match block_on(select(taken.recv(), futures::future::pending::<()>())) {
        Either::Left((word, _)) => println!("{word:?}"),
        Either::Right(_) => println!("nothing"),
    }
    drop(words);
    println!("{:?}", block_on(never.recv()));
    let mut every: FuturesUnordered<_> = (1..=5).map(|it| pool.spawn_with_handle(async move { it * it }).unwrap()).collect();
    let mut sum = 0;
    block_on(async {
        while let Some(square) = every.next().await {
            sum += square;
        }
    });
    println!("{sum}");
}
