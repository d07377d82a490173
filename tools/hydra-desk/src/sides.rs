//! Several files side by side, each with its own site and thread.

use std::sync::atomic::{AtomicUsize, Ordering};
use std::sync::Mutex;
use std::thread;

/// As many files at a time as the machine has processors, up to eight.
fn lanes(files: usize) -> usize {
    let processors = thread::available_parallelism().map_or(1, usize::from);
    files.min(processors).clamp(1, 8)
}

/// What `work` makes of each file and its place in the list, in the order of the files.
pub fn side_by_side<T: Send>(files: &[String], work: impl Fn(usize, &str) -> T + Sync) -> Vec<T> {
    let next = AtomicUsize::new(0);
    let results: Vec<Mutex<Option<T>>> = files.iter().map(|_| Mutex::new(None)).collect();
    thread::scope(|scope| {
        for _ in 0..lanes(files.len()) {
            scope.spawn(|| loop {
                let at = next.fetch_add(1, Ordering::Relaxed);
                let Some(file) = files.get(at) else {
                    return;
                };
                let result = work(at, file);
                *results[at].lock().expect("no work has panicked") = Some(result);
            });
        }
    });
    let taken = |result: Mutex<Option<T>>| result.into_inner().ok().flatten();
    results
        .into_iter()
        .map(|result| taken(result).expect("each file was worked on"))
        .collect()
}
