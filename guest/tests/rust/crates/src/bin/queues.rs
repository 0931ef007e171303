//! crossbeam: channels with select, queues, stealing, epochs, and groups that are waited for.

use crossbeam::channel::*;
use crossbeam::{deque, epoch, queue, sync::WaitGroup};
use std::time::Duration;
/// Takes numbers and texts of two channels until both are closed.
fn selects() {
    let (numbers, taken) = bounded::<u32>(3);
    let (words, read) = unbounded::<String>();
    let (mut count, mut sum, mut texts) = (0, 0, Vec::new());
    crossbeam::scope(|s| {
        for i in 0..3 {
            let numbers = numbers.clone();
            s.spawn(move |_| (0..20).for_each(|j| numbers.send(i * 100 + j).unwrap()));
        }
        drop(numbers);
        s.spawn(move |_| (0..5).for_each(|i| words.send(format!("m{i}")).unwrap()));
        let (mut taken, mut read) = (taken, read);
        while count < 60 || texts.len() < 5 {
            select! {
                recv(taken) -> it => match it {
                    Ok(number) => {
                        count += 1;
                        sum += number;
                    }
                    Err(_) => taken = never(),
                },
                recv(read) -> it => match it {
                    Ok(text) => texts.push(text),
                    Err(_) => read = never(),
                },
            }
        }
    })
    .unwrap();
    println!("{count} {sum} {texts:?}");
}

fn main() {
    selects();
    let (_s, r) = bounded::<()>(0);
    println!("{:?}", r.recv_timeout(Duration::from_millis(5)));
    println!("{:?}", after(Duration::from_millis(2)).recv().is_ok());
    let q = queue::ArrayQueue::new(8);
    let sq = queue::SegQueue::new();
    crossbeam::scope(|t| {
        for i in 0..4 {
            let (q, sq) = (&q, &sq);
            t.spawn(move |_| {
                q.push(i).unwrap();
                for j in 0..20 {
                    sq.push(i * 20 + j);
                }
            });
        }
    })
    .unwrap();
    let mut v: Vec<i32> = std::iter::from_fn(|| sq.pop()).collect();
    v.sort();
    println!("{} {} {}", q.len(), v.len(), v[79]);
    let w = deque::Worker::new_fifo();
    for i in 0..50 {
        w.push(i);
    }
    let st = w.stealer();
    let total: i32 = crossbeam::scope(|t| {
        let hs: Vec<_> = (0..3)
            .map(|_| {
                let st = st.clone();
                t.spawn(move |_| {
                    let mut s = 0;
                    loop {
                        match st.steal() {
                            deque::Steal::Success(x) => s += x,
                            deque::Steal::Empty => return s,
                            _ => {}
                        }
                    }
                })
            })
            .collect();
        hs.into_iter().map(|h| h.join().unwrap()).sum()
    })
    .unwrap();
    println!("{total}");
    let a = epoch::Atomic::new(1);
    crossbeam::scope(|t| {
        for i in 0..3 {
            let a = &a;
            t.spawn(move |_| {
                let g = epoch::pin();
                let old = a.swap(epoch::Owned::new(i), std::sync::atomic::Ordering::AcqRel, &g);
                unsafe { g.defer_destroy(old) }
            });
        }
    })
    .unwrap();
    println!("epoch");
    let wg = WaitGroup::new();
    for _ in 0..3 {
        let wg = wg.clone();
        std::thread::spawn(move || drop(wg));
    }
    wg.wait();
    println!("waited");
}
