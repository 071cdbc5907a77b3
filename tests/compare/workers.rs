//! Shares the cases out to two workers.

use std::ops::Range;
use std::sync::atomic::{AtomicUsize, Ordering};
use std::thread;

const WORKERS: usize = 2;

/// Has each worker take one batch of the numbers below `count` after the other, until
/// all are taken, and gives what each made of its batches, beginning with `start`.
pub fn shared<T: Send>(
    count: usize,
    batch: usize,
    start: impl Fn() -> T + Sync,
    work: impl Fn(&mut T, Range<usize>) + Sync,
) -> Vec<T> {
    let next = AtomicUsize::new(0);
    let take_all = || {
        let mut made = start();
        loop {
            let first = next.fetch_add(batch, Ordering::Relaxed);
            if first >= count {
                return made;
            }
            work(&mut made, first..(first + batch).min(count));
        }
    };
    thread::scope(|scope| {
        let workers: Vec<_> = (0..WORKERS).map(|_| scope.spawn(&take_all)).collect();
        workers.into_iter().map(|worker| worker.join().expect("a worker ends")).collect()
    })
}
