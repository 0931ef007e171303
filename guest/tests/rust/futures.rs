//! Futures on a small executor: wakers, tasks that wake each other, and a thread that is parked between them.

use std::collections::VecDeque;
use std::future::Future;
use std::pin::Pin;
use std::sync::{Arc, Mutex};
use std::task::{Context, Poll, Wake, Waker};
use std::thread::{self, Thread};
use std::time::Duration;

struct Unparks(Thread);

impl Wake for Unparks {
    fn wake(self: Arc<Self>) {
        self.0.unpark();
    }
}

fn block_on<T>(future: impl Future<Output = T>) -> T {
    let mut future = std::pin::pin!(future);
    let waker = Waker::from(Arc::new(Unparks(thread::current())));
    loop {
        match future.as_mut().poll(&mut Context::from_waker(&waker)) {
            Poll::Ready(value) => return value,
            Poll::Pending => thread::park(),
        }
    }
}

#[derive(Clone, Default)]
struct Queue(Arc<Mutex<(VecDeque<u32>, Option<Waker>)>>);

impl Queue {
    fn put(&self, value: u32) {
        let mut state = self.0.lock().unwrap();
        state.0.push_back(value);
        if let Some(waker) = state.1.take() {
            waker.wake();
        }
    }
}

impl Future for Queue {
    type Output = u32;

    fn poll(self: Pin<&mut Self>, context: &mut Context<'_>) -> Poll<u32> {
        let mut state = self.0.lock().unwrap();
        match state.0.pop_front() {
            Some(value) => Poll::Ready(value),
            None => {
                state.1 = Some(context.waker().clone());
                Poll::Pending
            }
        }
    }
}

async fn sum_of(queue: Queue, count: u32) -> u32 {
    let mut sum = 0;
    for _ in 0..count {
        sum += queue.clone().await;
    }
    sum
}

fn main() {
    let queue = Queue::default();
    for part in 0..3 {
        let queue = queue.clone();
        thread::spawn(move || {
            for i in 0..10 {
                thread::sleep(Duration::from_millis(1 + part));
                queue.put(i);
            }
        });
    }
    println!("{}", block_on(sum_of(queue, 30)));
    println!("{}", block_on(async { std::future::ready(7).await + 1 }));
}
