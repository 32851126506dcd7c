//! Blocks of work with seeds of their own, on two threads.

use std::sync::atomic::{AtomicBool, AtomicUsize, Ordering};
use std::thread;

const THREADS: usize = 2;

/// A block in which something differs, and what.
pub struct Failure {
    block: usize,
    report: String,
}

impl Failure {
    pub fn print(&self, seed: u64) {
        println!("\nDIFFERENCE in block {} of seed {seed}\n{}", self.block, self.report);
    }
}

/// Does the blocks from 0 on, until one fails: what was counted, and the first failure.
pub fn in_blocks<T: Default + Send>(
    blocks: usize,
    work: impl Fn(usize, &mut T) -> Result<(), String> + Sync,
    merge: fn(&mut T, T),
) -> (T, Option<Failure>) {
    let next = AtomicUsize::new(0);
    let stop = AtomicBool::new(false);
    let results: Vec<_> = thread::scope(|scope| {
        let threads: Vec<_> = (0..THREADS).map(|_| scope.spawn(|| one_thread(blocks, &work, &next, &stop))).collect();
        threads.into_iter().map(|thread| thread.join().expect("differences are returned")).collect()
    });
    let mut tally = T::default();
    let mut failures = Vec::new();
    for (part, failure) in results {
        merge(&mut tally, part);
        failures.extend(failure);
    }
    // Blocks are begun in order and always ended, so the first that fails is the same in every run.
    (tally, failures.into_iter().min_by_key(|failure| failure.block))
}

fn one_thread<T: Default>(
    blocks: usize,
    work: impl Fn(usize, &mut T) -> Result<(), String>,
    next: &AtomicUsize,
    stop: &AtomicBool,
) -> (T, Option<Failure>) {
    let mut tally = T::default();
    while !stop.load(Ordering::SeqCst) {
        let block = next.fetch_add(1, Ordering::SeqCst);
        if block >= blocks {
            break;
        }
        if let Err(report) = work(block, &mut tally) {
            stop.store(true, Ordering::SeqCst);
            return (tally, Some(Failure { block, report }));
        }
    }
    (tally, None)
}
