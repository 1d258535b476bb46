//! Two workers share a list of jobs, while progress is shown.

use std::sync::atomic::{AtomicU64, Ordering};
use std::thread;
use std::time::{Duration, Instant};

/// Processes at a time, since each worker runs one.
const WORKERS: usize = 2;

/// Does jobs 0 to `jobs` - 1, in order of their start, until one says `false`; each worker has its
/// own `state`, and all of them come back. Progress shows on standard error every second.
pub fn share<S: Send + Default>(
    jobs: u64,
    what: &str,
    job: impl Fn(&mut S, u64) -> bool + Sync,
) -> Vec<S> {
    let next = AtomicU64::new(0);
    let worker = || {
        let mut state = S::default();
        loop {
            let index = next.fetch_add(1, Ordering::Relaxed);
            if index >= jobs {
                return state;
            }
            if !job(&mut state, index) {
                next.store(jobs, Ordering::Relaxed);
            }
        }
    };
    thread::scope(|scope| {
        let workers: Vec<_> = (0..WORKERS).map(|_| scope.spawn(worker)).collect();
        let mut shown = Instant::now();
        while !workers.iter().all(|worker| worker.is_finished()) {
            thread::sleep(Duration::from_millis(10));
            if shown.elapsed() >= Duration::from_secs(1) {
                eprintln!("{} of {jobs} {what}", next.load(Ordering::Relaxed).min(jobs));
                shown = Instant::now();
            }
        }
        let join = |worker: thread::ScopedJoinHandle<S>| worker.join().expect("a worker failed");
        workers.into_iter().map(join).collect()
    })
}
