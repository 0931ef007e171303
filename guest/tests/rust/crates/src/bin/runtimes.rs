//! tokio: its runtime of one thread with timers and channels, blocking work in other threads, and its runtime of several threads.

use std::sync::Arc;
use std::time::Duration;
use tokio::runtime::{Builder, Runtime};
use tokio::sync::{mpsc, oneshot, Barrier, Mutex, Semaphore};
use tokio::task::{spawn, spawn_blocking, yield_now};
use tokio::time::{interval, sleep, timeout};

/// A task answers each number by a channel of its own.
async fn ask() -> Vec<u32> {
    let (questions, mut asked) = mpsc::channel::<(u32, oneshot::Sender<u32>)>(2);
    let answers = spawn(async move {
        while let Some((number, answer)) = asked.recv().await {
            answer.send(number * 2).unwrap();
        }
    });
    let mut found = Vec::new();
    for number in 0..5 {
        let (answer, answered) = oneshot::channel();
        questions.send((number, answer)).await.unwrap();
        found.push(answered.await.unwrap());
    }
    drop(questions);
    answers.await.unwrap();
    found
}

/// Tasks share a number, two at a time.
async fn share() -> u32 {
    let (count, two) = (Arc::new(Mutex::new(0)), Arc::new(Semaphore::new(2)));
    let together = Arc::new(Barrier::new(6));
    let tasks: Vec<_> = (0..6)
        .map(|_| {
            let (count, two, together) = (count.clone(), two.clone(), together.clone());
            spawn(async move {
                together.wait().await;
                let _place = two.acquire().await.unwrap();
                yield_now().await;
                *count.lock().await += 1;
            })
        })
        .collect();
    for task in tasks {
        task.await.unwrap();
    }
    let found = *count.lock().await;
    found
}

async fn timers() {
    println!("{:?}", timeout(Duration::from_millis(5), sleep(Duration::from_secs(5))).await.is_err());
    let mut ticks = interval(Duration::from_millis(2));
    for _ in 0..3 {
        ticks.tick().await;
    }
    println!("{:?}", timeout(Duration::from_secs(5), async { 3 }).await);
}

fn all(runtime: &Runtime) {
    runtime.block_on(async {
        println!("{:?}", ask().await);
        println!("{}", share().await);
        println!("{}", spawn_blocking(|| (1..=10_u32).product::<u32>()).await.unwrap());
        println!("{}", spawn(async { panic!("a task") }).await.unwrap_err().is_panic());
        timers().await;
    });
}

fn main() {
    all(&Builder::new_current_thread().enable_time().build().unwrap());
    all(&Builder::new_multi_thread().worker_threads(3).enable_time().build().unwrap());
}
