//! Work shared out to threads, its results taken in order.

use std::collections::BTreeMap;
use std::ops::Range;
use std::sync::atomic::{AtomicUsize, Ordering};
use std::sync::mpsc::{Receiver, Sender, channel};
use std::thread;

/// The most items that a thread takes at once: small beside all, and enough that handing over costs little.
const MOST_AT_ONCE: usize = 32;

/// Parts for each thread where there are few items, so that none waits long for the last.
const PARTS: usize = 8;

/// Does the work on each index below the count, in so many threads, and hands the results over in order, some at a time. Where
/// they are not taken the work ends.
pub fn run<R: Send, E>(
    count: usize,
    threads: usize,
    work: impl Fn(usize) -> R + Sync,
    take: impl FnMut(Vec<R>) -> Result<(), E>,
) -> Result<(), E> {
    let at_once = (count / (threads.max(1) * PARTS)).clamp(1, MOST_AT_ONCE);
    let next = AtomicUsize::new(0);
    let part = || {
        let start = next.fetch_add(at_once, Ordering::Relaxed);
        (start < count).then(|| start..count.min(start + at_once))
    };
    let (sender, receiver) = channel();
    thread::scope(|scope| {
        let start = |_: &usize| {
            let sender = sender.clone();
            let (part, work) = (&part, &work);
            let thread = thread::Builder::new();
            let started = thread.spawn_scoped(scope, move || work_on(part, work, &sender));
            started.is_ok()
        };
        let started = (0..threads.min(count)).take_while(start).count();
        // Where the system gives fewer threads, those that run do it all; where it gives none, it is done here.
        if started == 0 {
            work_on(part, &work, &sender);
        }
        drop(sender);
        in_order(receiver, take)
    })
}

/// Results with the index of the first.
type Part<R> = (usize, Vec<R>);

fn work_on<R>(
    part: impl Fn() -> Option<Range<usize>>,
    work: impl Fn(usize) -> R,
    sender: &Sender<Part<R>>,
) {
    while let Some(part) = part() {
        let start = part.start;
        let results = part.map(&work).collect();
        if sender.send((start, results)).is_err() {
            return;
        }
    }
}

/// Keeps what comes too early. The receiver goes with the first error, which ends the threads.
fn in_order<R, E>(
    receiver: Receiver<Part<R>>,
    mut take: impl FnMut(Vec<R>) -> Result<(), E>,
) -> Result<(), E> {
    let mut early = BTreeMap::new();
    let mut due = 0;
    for (start, results) in receiver {
        early.insert(start, results);
        while let Some(results) = early.remove(&due) {
            due += results.len();
            take(results)?;
        }
    }
    Ok(())
}

#[cfg(test)]
mod tests {
    use super::*;

    #[test]
    fn results_keep_their_order() {
        for count in [0, 1, 2, 31, 32, 33, 5_000] {
            for threads in [1, 2, 3, 8] {
                let mut taken = Vec::new();
                let work = |index: usize| {
                    // The first ones take longest.
                    (index..count.min(40)).for_each(|_| thread::yield_now());
                    index
                };
                let done = run(count, threads, work, |results| {
                    taken.extend(results);
                    Ok::<(), ()>(())
                });
                assert_eq!(done, Ok(()));
                assert_eq!(taken, (0..count).collect::<Vec<_>>(), "{count} {threads}");
            }
        }
    }

    #[test]
    fn an_error_ends_the_work() {
        let worked = AtomicUsize::new(0);
        let work = |index| {
            worked.fetch_add(1, Ordering::Relaxed);
            thread::yield_now();
            index
        };
        let done = run(10_000_000, 2, work, |_| Err("full"));
        assert_eq!(done, Err("full"));
        assert!(worked.into_inner() < 10_000_000);
    }
}
