//! Shares numbered pieces of work among the machine's cores.

use std::{
    sync::atomic::{AtomicU64, Ordering},
    thread,
};

/// Does the work of each number below `count`; every thread sums up what it finds.
pub fn share<S: Default + Send>(count: u64, work: impl Fn(&mut S, u64) + Sync) -> Vec<S> {
    let next = AtomicU64::new(0);
    let worker = || {
        let mut sum = S::default();
        loop {
            let number = next.fetch_add(1, Ordering::Relaxed);
            if number >= count {
                return sum;
            }
            work(&mut sum, number);
        }
    };
    let threads = thread::available_parallelism().map_or(1, usize::from);
    thread::scope(|scope| {
        let workers: Vec<_> = (0..threads).map(|_| scope.spawn(worker)).collect();
        let sums = workers.into_iter().map(|worker| worker.join().expect("a worker ends"));
        sums.collect()
    })
}
